use port::assembler::{Pool, ProcessResult};
use port::builder::FastPacketBuilder;

const ENGINE: u32 = 127_489;

fn main() -> Result<(), Box<dyn std::error::Error>> {
    let mut record = [0; 26];
    record[11..15].copy_from_slice(&1_245_185_u32.to_le_bytes());
    let (builder, held) = FastPacketBuilder::new(ENGINE, 35, None, &record, &[ENGINE], 0);

    let mut pool = Pool::new(4)?; // refused above 32
    let mut now_ms = 0;
    for frame in builder.build() {
        let frame = frame?;
        print!("{:08X} {:02X?}: ", frame.id.0, frame.data);
        let said = frame.id.read()?; // refused from 2^29 on: a driver may leave its flags in the bits above
        match pool.process_frame(&[ENGINE], now_ms, said.pgn, said.source_address, &frame.data) {
            ProcessResult::NotListed => println!("NotListed"),
            ProcessResult::Rejected => println!("Rejected"),
            ProcessResult::PoolFull => println!("PoolFull"),
            ProcessResult::Lost => println!("Lost"),
            ProcessResult::FragmentConsumed => println!("FragmentConsumed"),
            ProcessResult::MessageComplete(message) => {
                let hours = u32::from_le_bytes(message.payload[11..15].try_into()?);
                println!("MessageComplete, {} bytes, engine hours {hours} s", message.len);
            }
        }
        now_ms += 10;
    }
    println!("lost fragments: {}, number for the next message: {held}", pool.lost_fragments());

    // This PGN goes to everybody, so a destination is refused: once, and no frame follows.
    let (builder, _) = FastPacketBuilder::new(ENGINE, 35, Some(16), &record, &[ENGINE], held);
    for frame in builder.build() {
        match frame {
            Ok(frame) => println!("{:08X}", frame.id.0),
            Err(refusal) => println!("refusal {}: {refusal}", refusal.number()),
        }
    }
    Ok(())
}
