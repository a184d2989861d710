//! The doors to the original's private state work: a pool in any state, an iterator started anywhere, the global
//! sequence number, and the list that stands for FAST_PACKET_PGNS_ALL.
use reference::hooks::{GlobalSequence, Here, PoolState, Progress, Slot};
use reference::protocol::messages::stand_for;
use reference::protocol::transport::can_id::CanId;
use reference::protocol::transport::fast_packet::assembler::{FastPacketAssembler, ProcessResult};
use reference::protocol::transport::fast_packet::builder::FastPacketBuilder;

#[test]
fn an_identifier_is_built_and_read() {
    let id = CanId::builder(126_208, 35).with_priority(3).to_destination(16).build().unwrap();
    assert_eq!((id.0, id.priority(), id.pgn(), id.destination(), id.source_address()), (0x0DED_1023, 3, 126_208, Some(16), 35));
}

#[test]
fn a_pool_in_any_state() {
    let list: &'static [u32] = &[127_489];
    let mut a = FastPacketAssembler::<2>::with_pool(list);
    let slot = Slot { in_progress: true, source: 9, pgn: 127_489, sequence: 3, bytes: [5; 223], expected: 14, current: 13, last_index: 1, last_time: 100 };
    a.set_slot(1, &slot);
    assert_eq!(a.slot(1), slot);
    match a.process_frame(600, 127_489, 9, &[0x62, 7, 0, 0, 0, 0, 0, 0]) {
        ProcessResult::MessageComplete(m) => assert_eq!((m.len, m.payload[12], m.payload[13]), (14, 5, 7)),
        _ => panic!(),
    }
    let after = a.slot(1);
    assert_eq!((after.in_progress, after.source, after.last_time, after.bytes[13]), (false, 9, 600, 7));
}

#[test]
fn an_iterator_started_anywhere() {
    stand_for(&[127_489]);
    Here::set(7);
    let payload = [1u8; 30];
    let mut it = FastPacketBuilder::new(127_489, 35, None, &payload).build();
    assert_eq!(it.parts().sequence, 7);
    it.set_progress(255, 10);
    let f = it.next().unwrap().unwrap();
    assert_eq!((f.data[0], it.progress()), (0xFF, (0, 17)));
    // A short payload of a listed PGN is framed fast, of an unlisted one raw.
    assert_eq!(FastPacketBuilder::new(127_489, 35, None, &[1, 2, 3]).with_sequence_id(2).build().next().unwrap().unwrap().data, [0x40, 3, 1, 2, 3, 0xFF, 0xFF, 0xFF]);
    stand_for(&[]);
    assert_eq!(FastPacketBuilder::new(127_489, 35, None, &[1, 2, 3]).build().next().unwrap().unwrap().len, 3);
}
