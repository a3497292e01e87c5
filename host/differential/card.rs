//! The calls of the proved code, as include/levelspruce.h declares them, on slices.

use reference::packet::Fields;
use reference::receiver::rows::Row;

extern "C" {
    fn levelspruce_packet_write(epoch: u32, word: u32, gid: u32, mst: u32, rs_ack: u32, sq: u32, reserved: u32, h4: *mut u8, h4_length: usize) -> u8;
    fn levelspruce_packet_read(h4: *const u8, h4_length: usize, fields: *mut u8, fields_length: usize) -> u8;
    fn levelspruce_packet_write_fixed(epoch: u32, sq: u32, h4: *mut u8, h4_length: usize) -> u8;
    fn levelspruce_packet_read_fixed(h4: *const u8, h4_length: usize, fields: *mut u8, fields_length: usize) -> u8;
    fn levelspruce_packet_write_vc12(epoch: u32, word: u32, gid: u32, mst: u32, rs_ack: u32, sq: u32, reserved: u32, bits: *mut u8, bits_length: usize) -> u8;
    fn levelspruce_packet_read_vc12(bits: *const u8, bits_length: usize, fields: *mut u8, fields_length: usize) -> u8;
    fn levelspruce_spread(x: u32, p: u32, frame: *const u8, frame_length: usize, members: *mut u8, members_length: usize) -> u8;
    fn levelspruce_join(x: u32, p: u32, members: *const u8, members_length: usize, frame: *mut u8, frame_length: usize) -> u8;
    fn levelspruce_paths_plan(delays: *const u32, delays_length: usize, k: u32, window: u32, plan: *mut u8, plan_length: usize) -> u8;
    fn levelspruce_paths_check(
        delays: *const u32, delays_length: usize, k: u32, window: u32, set: *const u8, set_length: usize, accepted: *mut u8, accepted_length: usize,
    ) -> u8;
    fn levelspruce_sender_start(count: u32, first_epoch: u32, state: *mut u8, state_length: usize) -> u8;
    fn levelspruce_sender_start_as(kind: u32, count: u32, first_epoch: u32, state: *mut u8, state_length: usize) -> u8;
    fn levelspruce_sender_add(state: *mut u8, state_length: usize, slot: u32) -> u8;
    fn levelspruce_sender_remove(state: *mut u8, state_length: usize, slot: u32) -> u8;
    fn levelspruce_sender_report(state: *mut u8, state_length: usize, epoch: u32, mst: u32, rs_ack: u32) -> u8;
    fn levelspruce_sender_lapse(state: *mut u8, state_length: usize) -> u8;
    fn levelspruce_sender_start_epoch(state: *mut u8, state_length: usize, gid: u32, mst: u32, rs_ack: u32) -> u8;
    fn levelspruce_sender_packet(state: *const u8, state_length: usize, slot: u32, h4: *mut u8, h4_length: usize) -> u8;
    fn levelspruce_sender_payload(
        state: *const u8, state_length: usize, slot: u32, p: u32, frame: *const u8, frame_length: usize, member: *mut u8, member_length: usize,
    ) -> u8;
    fn levelspruce_sender_board(state: *const u8, state_length: usize, board: *mut u8, board_length: usize) -> u8;
    fn levelspruce_sender_board_going(state: *const u8, state_length: usize, board: *mut u8, board_length: usize) -> u8;
    fn levelspruce_sender_ranks(state: *const u8, state_length: usize, ranks: *mut u8, ranks_length: usize) -> u8;
    fn levelspruce_sender_settings(state: *const u8, state_length: usize, settings: *mut u8, settings_length: usize) -> u8;
    fn levelspruce_card_start(count: u32, first_epoch_0: u32, first_epoch_1: u32, state: *mut u8, state_length: usize) -> u8;
    fn levelspruce_card_start_as(kind: u32, count: u32, first_epoch_0: u32, first_epoch_1: u32, state: *mut u8, state_length: usize) -> u8;
    fn levelspruce_card_claim(state: *mut u8, state_length: usize, group: u32, slot: u32) -> u8;
    fn levelspruce_card_release(state: *mut u8, state_length: usize, group: u32, slot: u32) -> u8;
    fn levelspruce_card_add(state: *mut u8, state_length: usize, group: u32, slot: u32) -> u8;
    fn levelspruce_card_remove(state: *mut u8, state_length: usize, group: u32, slot: u32) -> u8;
    fn levelspruce_card_report(state: *mut u8, state_length: usize, group: u32, epoch: u32, mst: u32, rs_ack: u32) -> u8;
    fn levelspruce_card_lapse(state: *mut u8, state_length: usize, group: u32) -> u8;
    fn levelspruce_card_start_epoch(state: *mut u8, state_length: usize, group: u32, gid: u32, mst: u32, rs_ack: u32) -> u8;
    fn levelspruce_card_packet(state: *const u8, state_length: usize, group: u32, slot: u32, h4: *mut u8, h4_length: usize) -> u8;
    fn levelspruce_card_payload(
        state: *const u8, state_length: usize, group: u32, slot: u32, p: u32, frame: *const u8, frame_length: usize, member: *mut u8, member_length: usize,
    ) -> u8;
    fn levelspruce_card_board(state: *const u8, state_length: usize, group: u32, board: *mut u8, board_length: usize) -> u8;
    fn levelspruce_card_board_going(state: *const u8, state_length: usize, group: u32, board: *mut u8, board_length: usize) -> u8;
    fn levelspruce_card_ranks(state: *const u8, state_length: usize, group: u32, ranks: *mut u8, ranks_length: usize) -> u8;
    fn levelspruce_card_owned(state: *const u8, state_length: usize, group: u32, owned: *mut u8, owned_length: usize) -> u8;
    fn levelspruce_card_order(
        state: *mut u8, state_length: usize, commands: *const [u32; 3], commands_length: usize, answers: *mut u8, answers_length: usize,
    ) -> u8;
    fn levelspruce_sender_changes(state: *const u8, state_length: usize, told: *mut u8, told_length: usize, changes: *mut u8, changes_length: usize) -> u8;
    fn levelspruce_card_changes(
        state: *const u8, state_length: usize, group: u32, told: *mut u8, told_length: usize, changes: *mut u8, changes_length: usize,
    ) -> u8;
    fn levelspruce_board_changes(before: *const u8, before_length: usize, after: *const u8, after_length: usize, changes: *mut u8, changes_length: usize)
        -> u8;
    fn levelspruce_board_apply(board: *mut u8, board_length: usize, changes: *const u8, changes_length: usize) -> u8;
    fn levelspruce_board_speak(changes: *const u8, changes_length: usize, text: *mut u8, text_length: usize, written: *mut usize) -> u8;
    fn levelspruce_board_speak_runs(changes: *const u8, changes_length: usize, text: *mut u8, text_length: usize, written: *mut usize) -> u8;
    fn levelspruce_board_speak_whole(board: *const u8, board_length: usize, text: *mut u8, text_length: usize, written: *mut usize) -> u8;
    fn levelspruce_mend_lengths(recording: *const u8, recording_length: usize, mended_length: *mut usize, notes_length: *mut usize) -> u8;
    fn levelspruce_mend(recording: *const u8, recording_length: usize, mended: *mut u8, mended_length: usize, notes: *mut u8, notes_length: usize) -> u8;
    fn levelspruce_receiver_start(ports: u32, payload: u32, window: u32, store_bytes: usize, state: *mut Row, state_length: usize) -> u8;
    fn levelspruce_receiver_start_as(
        kind: u32, ports: u32, payload: u32, window: u32, store_bytes: usize, hold_off: *const u32, hold_off_length: usize, restore: *const u32,
        restore_length: usize, state: *mut Row, state_length: usize,
    ) -> u8;
    fn levelspruce_receiver_frame(
        state: *mut Row, state_length: usize, port: u32, failed: u32, h4: u8, payload: *const u8, payload_length: usize, store: *mut u8, store_length: usize,
    ) -> u8;
    fn levelspruce_receiver_fetch(
        state: *mut Row, state_length: usize, store: *const u8, store_length: usize, out: *mut u8, out_length: usize, report: *mut u8, report_length: usize,
    ) -> u8;
    fn levelspruce_receiver_ports(state: *const Row, state_length: usize, ports: *mut [u8; 8], ports_length: usize) -> u8;
    fn levelspruce_receiver_reply(state: *const Row, state_length: usize, epoch: u8, reply: *mut u8, reply_length: usize) -> u8;
    fn levelspruce_receiver_seen(state: *const Row, state_length: usize, seen: *mut [u8; 10], seen_length: usize) -> u8;
    fn levelspruce_receiver_cause(state: *const Row, state_length: usize, cause: *mut u8, cause_length: usize) -> u8;
    fn levelspruce_receiver_heard(state: *const Row, state_length: usize, heard: *mut u8, heard_length: usize) -> u8;
    fn levelspruce_receiver_behind(state: *const Row, state_length: usize, behind: *mut u32, behind_length: usize) -> u8;
    fn levelspruce_receiver_anew(state: *mut Row, state_length: usize, store: *const u8, store_length: usize) -> u8;
    fn levelspruce_receiver_settings(state: *const Row, state_length: usize, settings: *mut u32, settings_length: usize) -> u8;
}

pub fn packet_write(f: &Fields, h4: &mut [u8]) -> u8 {
    unsafe { levelspruce_packet_write(f.epoch, f.word, f.gid, f.mst, f.rs_ack, f.sq, f.reserved, h4.as_mut_ptr(), h4.len()) }
}

pub fn packet_read(h4: &[u8], fields: &mut [u8]) -> u8 {
    unsafe { levelspruce_packet_read(h4.as_ptr(), h4.len(), fields.as_mut_ptr(), fields.len()) }
}

pub fn packet_write_fixed(epoch: u32, sq: u32, h4: &mut [u8]) -> u8 {
    unsafe { levelspruce_packet_write_fixed(epoch, sq, h4.as_mut_ptr(), h4.len()) }
}

pub fn packet_read_fixed(h4: &[u8], fields: &mut [u8]) -> u8 {
    unsafe { levelspruce_packet_read_fixed(h4.as_ptr(), h4.len(), fields.as_mut_ptr(), fields.len()) }
}

pub fn packet_write_vc12(f: &Fields, bits: &mut [u8]) -> u8 {
    unsafe { levelspruce_packet_write_vc12(f.epoch, f.word, f.gid, f.mst, f.rs_ack, f.sq, f.reserved, bits.as_mut_ptr(), bits.len()) }
}

pub fn packet_read_vc12(bits: &[u8], fields: &mut [u8]) -> u8 {
    unsafe { levelspruce_packet_read_vc12(bits.as_ptr(), bits.len(), fields.as_mut_ptr(), fields.len()) }
}

pub fn spread(x: u32, p: u32, frame: &[u8], members: &mut [u8]) -> u8 {
    unsafe { levelspruce_spread(x, p, frame.as_ptr(), frame.len(), members.as_mut_ptr(), members.len()) }
}

pub fn join(x: u32, p: u32, members: &[u8], frame: &mut [u8]) -> u8 {
    unsafe { levelspruce_join(x, p, members.as_ptr(), members.len(), frame.as_mut_ptr(), frame.len()) }
}

pub fn paths_plan(delays: &[u32], k: u32, window: u32, plan: &mut [u8]) -> u8 {
    unsafe { levelspruce_paths_plan(delays.as_ptr(), delays.len(), k, window, plan.as_mut_ptr(), plan.len()) }
}

pub fn paths_check(delays: &[u32], k: u32, window: u32, set: &[u8], accepted: &mut [u8]) -> u8 {
    unsafe { levelspruce_paths_check(delays.as_ptr(), delays.len(), k, window, set.as_ptr(), set.len(), accepted.as_mut_ptr(), accepted.len()) }
}

pub fn sender_start(count: u32, first_epoch: u32, state: &mut [u8]) -> u8 {
    unsafe { levelspruce_sender_start(count, first_epoch, state.as_mut_ptr(), state.len()) }
}

pub fn sender_start_as(kind: u32, count: u32, first_epoch: u32, state: &mut [u8]) -> u8 {
    unsafe { levelspruce_sender_start_as(kind, count, first_epoch, state.as_mut_ptr(), state.len()) }
}

pub fn sender_add(state: &mut [u8], slot: u32) -> u8 {
    unsafe { levelspruce_sender_add(state.as_mut_ptr(), state.len(), slot) }
}

pub fn sender_remove(state: &mut [u8], slot: u32) -> u8 {
    unsafe { levelspruce_sender_remove(state.as_mut_ptr(), state.len(), slot) }
}

pub fn sender_report(state: &mut [u8], epoch: u32, mst: u32, rs_ack: u32) -> u8 {
    unsafe { levelspruce_sender_report(state.as_mut_ptr(), state.len(), epoch, mst, rs_ack) }
}

pub fn sender_lapse(state: &mut [u8]) -> u8 {
    unsafe { levelspruce_sender_lapse(state.as_mut_ptr(), state.len()) }
}

pub fn sender_start_epoch(state: &mut [u8], gid: u32, mst: u32, rs_ack: u32) -> u8 {
    unsafe { levelspruce_sender_start_epoch(state.as_mut_ptr(), state.len(), gid, mst, rs_ack) }
}

pub fn sender_packet(state: &[u8], slot: u32, h4: &mut [u8]) -> u8 {
    unsafe { levelspruce_sender_packet(state.as_ptr(), state.len(), slot, h4.as_mut_ptr(), h4.len()) }
}

pub fn sender_payload(state: &[u8], slot: u32, p: u32, frame: &[u8], member: &mut [u8]) -> u8 {
    unsafe { levelspruce_sender_payload(state.as_ptr(), state.len(), slot, p, frame.as_ptr(), frame.len(), member.as_mut_ptr(), member.len()) }
}

pub fn sender_board(state: &[u8], board: &mut [u8]) -> u8 {
    unsafe { levelspruce_sender_board(state.as_ptr(), state.len(), board.as_mut_ptr(), board.len()) }
}

pub fn sender_board_going(state: &[u8], board: &mut [u8]) -> u8 {
    unsafe { levelspruce_sender_board_going(state.as_ptr(), state.len(), board.as_mut_ptr(), board.len()) }
}

pub fn sender_ranks(state: &[u8], ranks: &mut [u8]) -> u8 {
    unsafe { levelspruce_sender_ranks(state.as_ptr(), state.len(), ranks.as_mut_ptr(), ranks.len()) }
}

pub fn sender_settings(state: &[u8], settings: &mut [u8]) -> u8 {
    unsafe { levelspruce_sender_settings(state.as_ptr(), state.len(), settings.as_mut_ptr(), settings.len()) }
}

pub fn card_start(count: u32, first_epochs: [u32; 2], state: &mut [u8]) -> u8 {
    unsafe { levelspruce_card_start(count, first_epochs[0], first_epochs[1], state.as_mut_ptr(), state.len()) }
}

pub fn card_start_as(kind: u32, count: u32, first: [u32; 2], state: &mut [u8]) -> u8 {
    unsafe { levelspruce_card_start_as(kind, count, first[0], first[1], state.as_mut_ptr(), state.len()) }
}

pub fn card_claim(state: &mut [u8], group: u32, slot: u32) -> u8 {
    unsafe { levelspruce_card_claim(state.as_mut_ptr(), state.len(), group, slot) }
}

pub fn card_release(state: &mut [u8], group: u32, slot: u32) -> u8 {
    unsafe { levelspruce_card_release(state.as_mut_ptr(), state.len(), group, slot) }
}

pub fn card_add(state: &mut [u8], group: u32, slot: u32) -> u8 {
    unsafe { levelspruce_card_add(state.as_mut_ptr(), state.len(), group, slot) }
}

pub fn card_remove(state: &mut [u8], group: u32, slot: u32) -> u8 {
    unsafe { levelspruce_card_remove(state.as_mut_ptr(), state.len(), group, slot) }
}

pub fn card_report(state: &mut [u8], group: u32, epoch: u32, mst: u32, rs_ack: u32) -> u8 {
    unsafe { levelspruce_card_report(state.as_mut_ptr(), state.len(), group, epoch, mst, rs_ack) }
}

pub fn card_lapse(state: &mut [u8], group: u32) -> u8 {
    unsafe { levelspruce_card_lapse(state.as_mut_ptr(), state.len(), group) }
}

pub fn card_start_epoch(state: &mut [u8], group: u32, gid: u32, mst: u32, rs_ack: u32) -> u8 {
    unsafe { levelspruce_card_start_epoch(state.as_mut_ptr(), state.len(), group, gid, mst, rs_ack) }
}

pub fn card_packet(state: &[u8], group: u32, slot: u32, h4: &mut [u8]) -> u8 {
    unsafe { levelspruce_card_packet(state.as_ptr(), state.len(), group, slot, h4.as_mut_ptr(), h4.len()) }
}

pub fn card_payload(state: &[u8], group: u32, slot: u32, p: u32, frame: &[u8], member: &mut [u8]) -> u8 {
    unsafe { levelspruce_card_payload(state.as_ptr(), state.len(), group, slot, p, frame.as_ptr(), frame.len(), member.as_mut_ptr(), member.len()) }
}

pub fn card_board(state: &[u8], group: u32, board: &mut [u8]) -> u8 {
    unsafe { levelspruce_card_board(state.as_ptr(), state.len(), group, board.as_mut_ptr(), board.len()) }
}

pub fn card_board_going(state: &[u8], group: u32, board: &mut [u8]) -> u8 {
    unsafe { levelspruce_card_board_going(state.as_ptr(), state.len(), group, board.as_mut_ptr(), board.len()) }
}

pub fn card_ranks(state: &[u8], group: u32, ranks: &mut [u8]) -> u8 {
    unsafe { levelspruce_card_ranks(state.as_ptr(), state.len(), group, ranks.as_mut_ptr(), ranks.len()) }
}

pub fn card_owned(state: &[u8], group: u32, owned: &mut [u8]) -> u8 {
    unsafe { levelspruce_card_owned(state.as_ptr(), state.len(), group, owned.as_mut_ptr(), owned.len()) }
}

pub fn card_order(state: &mut [u8], commands: &[[u32; 3]], answers: &mut [u8]) -> u8 {
    unsafe { levelspruce_card_order(state.as_mut_ptr(), state.len(), commands.as_ptr(), commands.len(), answers.as_mut_ptr(), answers.len()) }
}

pub fn sender_changes(state: &[u8], told: &mut [u8], changes: &mut [u8]) -> u8 {
    unsafe { levelspruce_sender_changes(state.as_ptr(), state.len(), told.as_mut_ptr(), told.len(), changes.as_mut_ptr(), changes.len()) }
}

pub fn card_changes(state: &[u8], group: u32, told: &mut [u8], changes: &mut [u8]) -> u8 {
    unsafe { levelspruce_card_changes(state.as_ptr(), state.len(), group, told.as_mut_ptr(), told.len(), changes.as_mut_ptr(), changes.len()) }
}

pub fn board_changes(before: &[u8], after: &[u8], changes: &mut [u8]) -> u8 {
    unsafe { levelspruce_board_changes(before.as_ptr(), before.len(), after.as_ptr(), after.len(), changes.as_mut_ptr(), changes.len()) }
}

pub fn board_apply(board: &mut [u8], changes: &[u8]) -> u8 {
    unsafe { levelspruce_board_apply(board.as_mut_ptr(), board.len(), changes.as_ptr(), changes.len()) }
}

pub fn board_speak(changes: &[u8], text: &mut [u8], written: &mut usize) -> u8 {
    unsafe { levelspruce_board_speak(changes.as_ptr(), changes.len(), text.as_mut_ptr(), text.len(), written) }
}

pub fn board_speak_runs(changes: &[u8], text: &mut [u8], written: &mut usize) -> u8 {
    unsafe { levelspruce_board_speak_runs(changes.as_ptr(), changes.len(), text.as_mut_ptr(), text.len(), written) }
}

pub fn board_speak_whole(board: &[u8], text: &mut [u8], written: &mut usize) -> u8 {
    unsafe { levelspruce_board_speak_whole(board.as_ptr(), board.len(), text.as_mut_ptr(), text.len(), written) }
}

pub fn receiver_start(ports: u32, payload: u32, window: u32, store_bytes: usize, state: &mut [Row]) -> u8 {
    unsafe { levelspruce_receiver_start(ports, payload, window, store_bytes, state.as_mut_ptr(), state.len()) }
}

/// What a receiver is started with: its kind, ports, P, W, the length of its store, hold-offs and waits-to-restore.
#[derive(Clone, Copy, Debug)]
pub struct Start<'a> {
    pub kind: u32,
    pub ports: u32,
    pub payload: u32,
    pub window: u32,
    pub store_bytes: usize,
    pub hold_off: &'a [u32],
    pub restore: &'a [u32],
}

pub fn receiver_start_as(start: &Start, state: &mut [Row]) -> u8 {
    let Start { kind, ports, payload, window, store_bytes, hold_off, restore } = *start;
    unsafe {
        levelspruce_receiver_start_as(
            kind,
            ports,
            payload,
            window,
            store_bytes,
            hold_off.as_ptr(),
            hold_off.len(),
            restore.as_ptr(),
            restore.len(),
            state.as_mut_ptr(),
            state.len(),
        )
    }
}

pub fn receiver_frame(state: &mut [Row], port: u32, failed: u32, h4: u8, payload: &[u8], store: &mut [u8]) -> u8 {
    unsafe { levelspruce_receiver_frame(state.as_mut_ptr(), state.len(), port, failed, h4, payload.as_ptr(), payload.len(), store.as_mut_ptr(), store.len()) }
}

pub fn receiver_fetch(state: &mut [Row], store: &[u8], out: &mut [u8], report: &mut [u8]) -> u8 {
    unsafe {
        levelspruce_receiver_fetch(state.as_mut_ptr(), state.len(), store.as_ptr(), store.len(), out.as_mut_ptr(), out.len(), report.as_mut_ptr(), report.len())
    }
}

pub fn receiver_ports(state: &[Row], ports: &mut [[u8; 8]]) -> u8 {
    unsafe { levelspruce_receiver_ports(state.as_ptr(), state.len(), ports.as_mut_ptr(), ports.len()) }
}

pub fn receiver_reply(state: &[Row], epoch: u8, reply: &mut [u8]) -> u8 {
    unsafe { levelspruce_receiver_reply(state.as_ptr(), state.len(), epoch, reply.as_mut_ptr(), reply.len()) }
}

pub fn receiver_seen(state: &[Row], seen: &mut [[u8; 10]]) -> u8 {
    unsafe { levelspruce_receiver_seen(state.as_ptr(), state.len(), seen.as_mut_ptr(), seen.len()) }
}

pub fn receiver_cause(state: &[Row], cause: &mut [u8]) -> u8 {
    unsafe { levelspruce_receiver_cause(state.as_ptr(), state.len(), cause.as_mut_ptr(), cause.len()) }
}

pub fn receiver_heard(state: &[Row], heard: &mut [u8]) -> u8 {
    unsafe { levelspruce_receiver_heard(state.as_ptr(), state.len(), heard.as_mut_ptr(), heard.len()) }
}

pub fn receiver_behind(state: &[Row], behind: &mut [u32]) -> u8 {
    unsafe { levelspruce_receiver_behind(state.as_ptr(), state.len(), behind.as_mut_ptr(), behind.len()) }
}

pub fn receiver_anew(state: &mut [Row], store: &[u8]) -> u8 {
    unsafe { levelspruce_receiver_anew(state.as_mut_ptr(), state.len(), store.as_ptr(), store.len()) }
}

pub fn receiver_settings(state: &[Row], settings: &mut [u32]) -> u8 {
    unsafe { levelspruce_receiver_settings(state.as_ptr(), state.len(), settings.as_mut_ptr(), settings.len()) }
}

pub fn mend_lengths(recording: &[u8], mended: &mut usize, notes: &mut usize) -> u8 {
    unsafe { levelspruce_mend_lengths(recording.as_ptr(), recording.len(), mended, notes) }
}

pub fn mend(recording: &[u8], mended: &mut [u8], notes: &mut [u8]) -> u8 {
    unsafe { levelspruce_mend(recording.as_ptr(), recording.len(), mended.as_mut_ptr(), mended.len(), notes.as_mut_ptr(), notes.len()) }
}
