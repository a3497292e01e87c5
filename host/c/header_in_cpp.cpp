// The header serves C++ too: this compiles, links and gets P1's first and last byte.
#include <levelspruce.h>

#include <cstdio>
#include <cstring>

#include "check.h"

int main()
{
    uint8_t h4[LEVELSPRUCE_PACKET_BYTES];
    uint8_t fields[LEVELSPRUCE_FIELDS_BYTES];

    check("a C++ program writes a packet",
          levelspruce_packet_write(0, LEVELSPRUCE_WORD_IDLE, 0, 255, 0, 255, 0, h4, sizeof h4) == LEVELSPRUCE_ANSWER_DONE && h4[0] == 0xF8 && h4[15] == 0x97);
    check("a C++ program reads a packet",
          levelspruce_packet_read(h4, sizeof h4, fields, sizeof fields) == LEVELSPRUCE_ANSWER_DONE && fields[LEVELSPRUCE_FIELD_SQ] == 255);
    check("a C++ program writes and reads a packet of a fixed group",
          levelspruce_packet_write_fixed(58, 5, h4, sizeof h4) == LEVELSPRUCE_ANSWER_DONE && h4[7] == 0x5F
              && levelspruce_packet_read_fixed(h4, sizeof h4, fields, sizeof fields) == LEVELSPRUCE_ANSWER_DONE && fields[LEVELSPRUCE_FIELD_SQ] == 5);
    uint8_t receiver[LEVELSPRUCE_RECEIVER_ROWS(1)][LEVELSPRUCE_ROW_BYTES];
    uint8_t ports[1][LEVELSPRUCE_PORT_BYTES];
    check("a C++ program starts a receiver and sees its port",
          levelspruce_receiver_start(1, 2, 16, LEVELSPRUCE_STORE_BYTES(1, 2, 16), receiver, LEVELSPRUCE_RECEIVER_ROWS(1)) == LEVELSPRUCE_ANSWER_DONE
              && levelspruce_receiver_ports(receiver, LEVELSPRUCE_RECEIVER_ROWS(1), ports, 1) == LEVELSPRUCE_ANSWER_DONE
              && ports[0][LEVELSPRUCE_PORT_STATE] == LEVELSPRUCE_PORT_IDLE);
    uint8_t seen[1][LEVELSPRUCE_SEEN_BYTES], cause[LEVELSPRUCE_CAUSE_BYTES], heard[LEVELSPRUCE_HEARD_BYTES], frames[LEVELSPRUCE_STORE_BYTES(1, 2, 16)] = { 0 };
    uint32_t behind[1], settings[LEVELSPRUCE_SETTINGS];
    check("a C++ program reads why the next report would not be sure, and the port",
          levelspruce_receiver_cause(receiver, LEVELSPRUCE_RECEIVER_ROWS(1), cause, sizeof cause) == LEVELSPRUCE_ANSWER_DONE
              && cause[LEVELSPRUCE_CAUSE_CLAUSE] == LEVELSPRUCE_CAUSE_UNSEEN && cause[LEVELSPRUCE_CAUSE_PORT] == 0);
    check("a C++ program reads what a receiver saw, what it heard, how far behind its port is and its settings, and begins it anew",
          levelspruce_receiver_seen(receiver, LEVELSPRUCE_RECEIVER_ROWS(1), seen, 1) == LEVELSPRUCE_ANSWER_DONE && seen[0][LEVELSPRUCE_SEEN_WHOLE] == 0
              && levelspruce_receiver_heard(receiver, LEVELSPRUCE_RECEIVER_ROWS(1), heard, sizeof heard) == LEVELSPRUCE_ANSWER_DONE
              && heard[LEVELSPRUCE_HEARD_SAID] == 0 && levelspruce_receiver_behind(receiver, LEVELSPRUCE_RECEIVER_ROWS(1), behind, 1) == LEVELSPRUCE_ANSWER_DONE
              && behind[0] == LEVELSPRUCE_BEHIND_NONE
              && levelspruce_receiver_settings(receiver, LEVELSPRUCE_RECEIVER_ROWS(1), settings, LEVELSPRUCE_SETTINGS) == LEVELSPRUCE_ANSWER_DONE
              && settings[LEVELSPRUCE_SETTING_WINDOW] == 16
              && levelspruce_receiver_anew(receiver, LEVELSPRUCE_RECEIVER_ROWS(1), frames, sizeof frames) == LEVELSPRUCE_ANSWER_DONE);
    const uint32_t times[1] = { LEVELSPRUCE_TIMER_MOST };
    check("a C++ program starts a receiver with times",
          levelspruce_receiver_start_as(LEVELSPRUCE_KIND_H4, 1, 2, 16, LEVELSPRUCE_STORE_BYTES(1, 2, 16), times, 1, nullptr, 0, receiver,
                                        LEVELSPRUCE_RECEIVER_ROWS(1))
                  == LEVELSPRUCE_ANSWER_DONE
              && levelspruce_receiver_ports(receiver, LEVELSPRUCE_RECEIVER_ROWS(1), ports, 1) == LEVELSPRUCE_ANSWER_DONE
              && ports[0][LEVELSPRUCE_PORT_WAITING] == 0);
    check("a C++ program starts a receiver of a fixed group", levelspruce_receiver_start_as(LEVELSPRUCE_KIND_FIXED, 1, 2, 16, LEVELSPRUCE_STORE_BYTES(1, 2, 16),
                                                                                            nullptr, 0, nullptr, 0, receiver, LEVELSPRUCE_RECEIVER_ROWS(1))
                                                                  == LEVELSPRUCE_ANSWER_DONE);
    uint8_t bits[LEVELSPRUCE_PACKET_BYTES_VC12];
    check("a C++ program writes and reads a packet of VC-12",
          levelspruce_packet_write_vc12(0, LEVELSPRUCE_WORD_IDLE, 0, 255, 0, LEVELSPRUCE_NUMBER_IDLE_VC12, 0, bits, sizeof bits) == LEVELSPRUCE_ANSWER_DONE
              && bits[0] == LEVELSPRUCE_VC12_START && bits[30] == 1
              && levelspruce_packet_read_vc12(bits, sizeof bits, fields, sizeof fields) == LEVELSPRUCE_ANSWER_DONE && fields[LEVELSPRUCE_FIELD_SQ] == 63);
    uint8_t sender[LEVELSPRUCE_SENDER_BYTES], card[LEVELSPRUCE_CARD_BYTES];
    check("a C++ program starts sender, card and receiver of VC-12",
          levelspruce_sender_start_as(LEVELSPRUCE_KIND_VC12, 1, 31, sender, sizeof sender) == LEVELSPRUCE_ANSWER_DONE
              && levelspruce_card_start_as(LEVELSPRUCE_KIND_VC12, 1, 31, 0, card, sizeof card) == LEVELSPRUCE_ANSWER_DONE
              && levelspruce_receiver_start_as(LEVELSPRUCE_KIND_VC12, 1, LEVELSPRUCE_PAYLOAD_VC12, LEVELSPRUCE_WINDOW_LEAST_VC12,
                                               LEVELSPRUCE_STORE_BYTES(1, LEVELSPRUCE_PAYLOAD_VC12, LEVELSPRUCE_WINDOW_LEAST_VC12), nullptr, 0, nullptr, 0,
                                               receiver, LEVELSPRUCE_RECEIVER_ROWS(1))
                     == LEVELSPRUCE_ANSWER_DONE
              && LEVELSPRUCE_OUTPUT_BYTES_VC12(1) == 4352);
    const uint8_t torn[] = { '1', '\t', '1', '\t', '1', '6', '\n', 'x' };
    uint8_t mended[7], notes[10];
    std::size_t mended_length, notes_length;
    check("a C++ program mends a recording", levelspruce_mend_lengths(torn, sizeof torn, &mended_length, &notes_length) == LEVELSPRUCE_ANSWER_DONE
                                                 && mended_length == sizeof mended && notes_length == sizeof notes
                                                 && levelspruce_mend(torn, sizeof torn, mended, sizeof mended, notes, sizeof notes) == LEVELSPRUCE_ANSWER_DONE
                                                 && std::memcmp(mended, torn, sizeof mended) == 0 && notes[0] == '2');
    uint8_t replay[LEVELSPRUCE_REPLAY_BYTES], rows[LEVELSPRUCE_RECEIVER_ROWS(64)][LEVELSPRUCE_ROW_BYTES], store[32], out[16], said[LEVELSPRUCE_REPLAY_ROOM],
        wants;
    std::size_t store_length, out_length, at = 0, written;
    check("a C++ program replays a recording",
          levelspruce_replay_lengths(torn, sizeof torn, &store_length, &out_length) == LEVELSPRUCE_ANSWER_DONE && store_length == sizeof store
              && out_length == sizeof out && levelspruce_replay_begin(replay, sizeof replay) == LEVELSPRUCE_ANSWER_DONE
              && levelspruce_replay_turn(replay, sizeof replay, torn, sizeof torn, &at, 1, rows, LEVELSPRUCE_RECEIVER_ROWS(64), store, sizeof store, out,
                                         sizeof out, said, sizeof said, &written, &wants)
                     == LEVELSPRUCE_ANSWER_DONE
              && at == 7 && written == 0 && wants == 0);
    char version[32];
    std::snprintf(version, sizeof version, "%d.%d.%d", LEVELSPRUCE_VERSION_MAJOR, LEVELSPRUCE_VERSION_MINOR, LEVELSPRUCE_VERSION_PATCH);
    check("the version's text has its numbers, and the library has it",
          std::strcmp(version, LEVELSPRUCE_VERSION) == 0 && std::strcmp(version, levelspruce_version()) == 0);
    check("a C++ program gets the texts", std::strcmp(levelspruce_answer_text(LEVELSPRUCE_ANSWER_DONE), "done") == 0
                                              && std::strcmp(levelspruce_cause_text(LEVELSPRUCE_CAUSE_LACKING), "an active port lacks a frame") == 0
                                              && std::strcmp(levelspruce_word_name(LEVELSPRUCE_WORD_EOS), "EOS") == 0
                                              && std::strcmp(levelspruce_mark_name(LEVELSPRUCE_MARK_SURE), "sure") == 0);
    return tally();
}
