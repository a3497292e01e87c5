/* What docs/MANUAL.md and docs/SYMPTOMS.md say of alarms, lost frames, restarts and the way back, each tried over the calls. */
#include <levelspruce.h>

#include <string.h>

#include "check.h"

enum { SLOTS = 3, P = 5, W = 64, EPOCHS = 160, FRAMES = EPOCHS * LEVELSPRUCE_EPOCH_FRAMES };

/* What happens to a port's frame in a frame time. */
enum { BRING = 1, FLAG = 2, FLAG_AND_BRING = FLAG | BRING };

typedef int happening(int port, long frame);

/* A sender and a receiver, with lines of no delay. */
static uint8_t sender[LEVELSPRUCE_SENDER_BYTES];
static uint8_t receiver[LEVELSPRUCE_RECEIVER_ROWS(SLOTS)][LEVELSPRUCE_ROW_BYTES];
static uint8_t store[LEVELSPRUCE_STORE_BYTES(SLOTS, P, W)], out[LEVELSPRUCE_OUTPUT_BYTES(SLOTS, P)];
static uint8_t sent[EPOCHS][LEVELSPRUCE_EPOCH_FRAMES * SLOTS * P];
static size_t carried[EPOCHS]; /* the bytes of each epoch */
static long index_of[256];     /* the last epoch that has this number at the sender or by the receiver's count */
static uint8_t ports[SLOTS][LEVELSPRUCE_PORT_BYTES], seen[SLOTS][LEVELSPRUCE_SEEN_BYTES];
static const size_t rows = LEVELSPRUCE_RECEIVER_ROWS(SLOTS);

/* What a run came to. */
static struct {
    int refused; /* answers that nobody expected */
    int marks[4];
    int sure_and_wrong;
    int alarms, empty_alarms, port_alarms; /* reports for which alarm l is raised: by its rule, by it with nobody active, and by the ports' words */
    int sure_alarms;                       /* those by its rule that are not held */
} run;

/* Where the sender restarts before an epoch, and the number of its first one then. */
static long restart = -1, again;

static void expect(int held)
{
    run.refused += !held;
}

/* Alarm l by what is seen: of the ports whose packet is whole and good, with NORM or EOS, one below the highest has EOS; or there are
 * some, none has EOS, and every port's packet is whole. 'empty' raises it where there are none, too. */
static int eos_alarm(int empty)
{
    int port, highest = -1, eos = 0, eos_below = 0, active = 0, all_whole = 1;

    for (port = 0; port < SLOTS; port++) {
        const uint8_t *s = seen[port];
        int good = s[LEVELSPRUCE_SEEN_WHOLE] && s[LEVELSPRUCE_SEEN_ANSWER] == LEVELSPRUCE_ANSWER_DONE && !s[LEVELSPRUCE_SEEN_OTHER];

        all_whole = all_whole && s[LEVELSPRUCE_SEEN_WHOLE];
        if (good && (s[LEVELSPRUCE_SEEN_WORD] == LEVELSPRUCE_WORD_NORM || s[LEVELSPRUCE_SEEN_WORD] == LEVELSPRUCE_WORD_EOS)) {
            active++;
            if (s[LEVELSPRUCE_SEEN_NUMBER] > highest)
                highest = s[LEVELSPRUCE_SEEN_NUMBER];
        }
    }
    for (port = 0; port < SLOTS; port++)
        if (seen[port][LEVELSPRUCE_SEEN_WORD] == LEVELSPRUCE_WORD_EOS && !seen[port][LEVELSPRUCE_SEEN_OTHER]) {
            eos++;
            eos_below += seen[port][LEVELSPRUCE_SEEN_NUMBER] != highest;
        }
    return eos_below > 0 || (eos == 0 && all_whole && (active > 0 || empty));
}

/* The same by the words that the ports show, which stay when a port goes dark. */
static int port_alarm(void)
{
    int port, highest = -1, eos = 0, eos_below = 0, active = 0;

    for (port = 0; port < SLOTS; port++) {
        int word = ports[port][LEVELSPRUCE_PORT_WORD], number = ports[port][LEVELSPRUCE_PORT_NUMBER];

        if ((word == LEVELSPRUCE_WORD_NORM || word == LEVELSPRUCE_WORD_EOS) && ++active && number > highest)
            highest = number;
    }
    for (port = 0; port < SLOTS; port++)
        if (ports[port][LEVELSPRUCE_PORT_WORD] == LEVELSPRUCE_WORD_EOS) {
            eos++;
            eos_below += ports[port][LEVELSPRUCE_PORT_NUMBER] != highest;
        }
    return eos_below > 0 || (eos == 0 && active > 0);
}

static void fetch_all(void)
{
    uint8_t report[LEVELSPRUCE_REPORT_BYTES];

    for (;;) {
        size_t bytes;
        long of;

        expect(levelspruce_receiver_seen((const uint8_t(*)[LEVELSPRUCE_ROW_BYTES])receiver, rows, seen, SLOTS) == LEVELSPRUCE_ANSWER_DONE);
        expect(levelspruce_receiver_fetch(receiver, rows, store, sizeof store, out, sizeof out, report, sizeof report) == LEVELSPRUCE_ANSWER_DONE);
        if (report[LEVELSPRUCE_REPORT_MARK] == LEVELSPRUCE_MARK_NONE)
            return;
        of = index_of[report[LEVELSPRUCE_REPORT_EPOCH]];
        bytes = (size_t)LEVELSPRUCE_EPOCH_FRAMES * report[LEVELSPRUCE_REPORT_X] * P;
        run.marks[report[LEVELSPRUCE_REPORT_MARK]]++;
        run.sure_and_wrong += report[LEVELSPRUCE_REPORT_MARK] == LEVELSPRUCE_MARK_SURE && (bytes != carried[of] || memcmp(out, sent[of], bytes) != 0);
        expect(levelspruce_receiver_ports((const uint8_t(*)[LEVELSPRUCE_ROW_BYTES])receiver, rows, ports, SLOTS) == LEVELSPRUCE_ANSWER_DONE);
        run.alarms += eos_alarm(0);
        run.empty_alarms += eos_alarm(1);
        run.port_alarms += port_alarm();
        run.sure_alarms += eos_alarm(0) && report[LEVELSPRUCE_REPORT_MARK] != LEVELSPRUCE_MARK_HELD;
    }
}

static void hand(int port, int failed, uint8_t h4, const uint8_t *payload)
{
    uint8_t answer = levelspruce_receiver_frame(receiver, rows, (uint32_t)port, (uint32_t)failed, h4, payload, P, store, sizeof store);

    expect(answer == LEVELSPRUCE_ANSWER_DONE || answer == LEVELSPRUCE_ANSWER_STEP || answer == LEVELSPRUCE_ANSWER_FAILED);
}

/* The sender starts with this number, every slot a member. */
static void start_sender(uint32_t first)
{
    uint32_t slot;

    expect(levelspruce_sender_start(SLOTS, first, sender, sizeof sender) == LEVELSPRUCE_ANSWER_DONE);
    for (slot = 0; slot < SLOTS; slot++)
        expect(levelspruce_sender_add(sender, sizeof sender, slot) == LEVELSPRUCE_ANSWER_DONE);
}

/* Both ends for all epochs, every slot a member, the reply handed to the sender at each start. */
static void run_both(happening *happens)
{
    uint8_t h4[SLOTS][LEVELSPRUCE_PACKET_BYTES], ranks[LEVELSPRUCE_RANKS_BYTES], reply[LEVELSPRUCE_REPLY_BYTES], member[P];
    uint32_t slot;
    long n;

    memset(&run, 0, sizeof run);
    memset(ports, 0, sizeof ports);
    start_sender(0);
    expect(levelspruce_receiver_start(SLOTS, P, W, sizeof store, receiver, rows) == LEVELSPRUCE_ANSWER_DONE);
    for (n = 0; n < FRAMES; n++) {
        long epoch = n / LEVELSPRUCE_EPOCH_FRAMES, k = n % LEVELSPRUCE_EPOCH_FRAMES;
        size_t bytes, i;
        uint8_t *frame;

        if (k == 0) {
            uint32_t number = (uint32_t)(restart < 0 || epoch < restart ? epoch : again + epoch - restart) % 256;

            if (epoch == restart)
                start_sender((uint32_t)again);
            index_of[epoch % 256] = index_of[number] = epoch;
            expect(levelspruce_receiver_reply((const uint8_t(*)[LEVELSPRUCE_ROW_BYTES])receiver, rows, (uint8_t)number, reply, sizeof reply)
                   == LEVELSPRUCE_ANSWER_DONE);
            expect(levelspruce_sender_report(sender, sizeof sender, number, reply[LEVELSPRUCE_REPLY_MST], reply[LEVELSPRUCE_REPLY_RS_ACK])
                   == LEVELSPRUCE_ANSWER_DONE);
            expect(levelspruce_sender_start_epoch(sender, sizeof sender, (uint32_t)(epoch % 3 == 0), 0xFF, 0) == LEVELSPRUCE_ANSWER_DONE);
            expect(levelspruce_sender_ranks(sender, sizeof sender, ranks, sizeof ranks) == LEVELSPRUCE_ANSWER_DONE);
            for (slot = 0; slot < SLOTS; slot++)
                expect(levelspruce_sender_packet(sender, sizeof sender, slot, h4[slot], sizeof h4[slot]) == LEVELSPRUCE_ANSWER_DONE);
        }
        bytes = (size_t)ranks[LEVELSPRUCE_RANKS_X] * P;
        carried[epoch] = bytes * LEVELSPRUCE_EPOCH_FRAMES;
        frame = sent[epoch] + (size_t)k * bytes;
        for (i = 0; i < bytes; i++)
            frame[i] = (uint8_t)(n * 37 + (long)i * 11);
        for (slot = 0; slot < SLOTS; slot++) {
            int what = happens((int)slot, n);

            expect(levelspruce_sender_payload(sender, sizeof sender, slot, P, frame, bytes, member, sizeof member) == LEVELSPRUCE_ANSWER_DONE);
            if (what & FLAG)
                hand((int)slot, 1, 0, member);
            if (what & BRING)
                hand((int)slot, 0, h4[slot][k], member);
            fetch_all();
        }
    }
}

static int nothing_happens(int port, long frame)
{
    (void)port;
    (void)frame;
    return BRING;
}

/* The port with EOS is dark from epoch 80 to epoch 140. */
static int eos_goes_dark(int port, long frame)
{
    return port == SLOTS - 1 && frame >= 80 * LEVELSPRUCE_EPOCH_FRAMES && frame < 140 * LEVELSPRUCE_EPOCH_FRAMES ? FLAG : BRING;
}

static long lost_from, lost_count;
static int flagged_after;

static int some_are_lost(int port, long frame)
{
    if (port != 0 || frame < lost_from || frame > lost_from + lost_count)
        return BRING;
    if (frame < lost_from + lost_count)
        return 0;
    return flagged_after ? FLAG_AND_BRING : BRING;
}

/* How many epochs are sure and wrong after a loss of so many frames at a place of an epoch; -1 where it is not as it should be. */
static int wrong_at(long epoch, long place, long count, int flag)
{
    lost_from = epoch * LEVELSPRUCE_EPOCH_FRAMES + place;
    lost_count = count;
    flagged_after = flag;
    run_both(some_are_lost);
    return run.refused > 0 || run.marks[LEVELSPRUCE_MARK_SURE] < 80 ? -1 : run.sure_and_wrong;
}

/* At how many of the sixteen places of an epoch a loss of so many frames gives a sure epoch with wrong bytes; -1 where it
 * gives more than one there. */
static int wrong_places(long count, int flag)
{
    int places = 0;
    long k;

    for (k = 0; k < LEVELSPRUCE_EPOCH_FRAMES; k++) {
        int wrong = wrong_at(80, k, count, flag);

        if (wrong < 0 || wrong > 1)
            return -1;
        places += wrong;
    }
    return places;
}

/* At the last place of how many of these epochs a loss of sixteen frames gives two sure epochs with wrong bytes; -1 where it gives
 * none or more. */
static int wrong_twice(void)
{
    int twice = 0;
    long epoch;

    for (epoch = 64; epoch < 128; epoch++) {
        int wrong = wrong_at(epoch, LEVELSPRUCE_EPOCH_FRAMES - 1, 16, 0);

        if (wrong != 1 && wrong != 2)
            return -1;
        twice += wrong == 2;
    }
    return twice;
}

static void check_lost_frames(void)
{
    int twice = wrong_twice();

    check("a loss of sixteen frames gives one epoch that is sure and wrong, at any place", wrong_places(16, 0) == 16 && wrong_places(32, 0) == 16);
    check("a loss of any other number gives one at the last three places", wrong_places(1, 0) == 3 && wrong_places(15, 0) == 3 && wrong_places(17, 0) == 3);
    check("neither gives any where a flagged frame is handed after it",
          wrong_places(16, 1) == 0 && wrong_places(32, 1) == 0 && wrong_places(1, 1) == 0 && wrong_places(15, 1) == 0 && wrong_places(17, 1) == 0);
    printf("a loss of sixteen frames at the last place\tepochs\t64\ttwo sure and wrong\t%d\n", twice);
    check("at the last place it seldom gives two", twice > 0 && twice < 10);
}

/* One frame before the sender restarts every port is flagged, or not. */
static int restarts(int port, long frame)
{
    (void)port;
    return flagged_after && frame == restart * LEVELSPRUCE_EPOCH_FRAMES ? FLAG_AND_BRING : BRING;
}

/* How many epochs are sure and wrong where the sender restarts with this number before epoch 80; -1 where it is not as it should be. */
static int wrong_after(long first, int flag)
{
    restart = 80;
    again = first;
    flagged_after = flag;
    run_both(restarts);
    restart = -1;
    return run.refused > 0 || run.marks[LEVELSPRUCE_MARK_SURE] < 110 ? -1 : run.sure_and_wrong;
}

static void check_restarts(void)
{
    int one = 1, none = 1;
    long first;

    for (first = 0; first < 256; first += 5) {
        one = one && wrong_after(first, 0) == 1;
        none = none && wrong_after(first, 1) == 0;
    }
    check("a sender that restarts with no dark time gives one epoch that is sure and wrong, whatever its first number", one);
    check("and none where every port is flagged before its first frame", none);
}

/* Ports whose packets have these words and the numbers 0, 1, 2, for so many epochs: whether the alarm is raised, and the
 * epochs are held. */
static int cries(uint32_t first, uint32_t second, uint32_t third)
{
    const uint32_t words[SLOTS] = { first, second, third };
    const uint8_t nothing[P] = { 0 };
    uint8_t h4[LEVELSPRUCE_PACKET_BYTES];
    uint32_t port;
    long n;

    memset(&run, 0, sizeof run);
    expect(levelspruce_receiver_start(SLOTS, P, W, sizeof store, receiver, rows) == LEVELSPRUCE_ANSWER_DONE);
    memset(sent, 0, sizeof sent);
    for (n = 0; n < 12; n++)
        index_of[n] = n;
    for (n = 0; n < 12 * LEVELSPRUCE_EPOCH_FRAMES; n++)
        for (port = 0; port < SLOTS; port++) {
            expect(levelspruce_packet_write((uint32_t)(n / LEVELSPRUCE_EPOCH_FRAMES), words[port], 0, 0xFF, 0, port, 0, h4, sizeof h4)
                   == LEVELSPRUCE_ANSWER_DONE);
            hand((int)port, 0, h4[n % LEVELSPRUCE_EPOCH_FRAMES], nothing);
            fetch_all();
        }
    expect(run.marks[LEVELSPRUCE_MARK_HELD] + run.marks[LEVELSPRUCE_MARK_SURE] > 4);
    return run.refused == 0 && run.alarms > 4 && run.sure_alarms == 0;
}

static void check_alarm_l(void)
{
    enum { NORM = LEVELSPRUCE_WORD_NORM, EOS = LEVELSPRUCE_WORD_EOS, DNU = LEVELSPRUCE_WORD_DNU };

    run_both(nothing_happens);
    printf("nothing happens\talarms\t%d\talarms where nobody is active too\t%d\n", run.alarms, run.empty_alarms);
    check("alarm l is not raised where nothing happens", run.refused == 0 && run.alarms == 0 && run.marks[LEVELSPRUCE_MARK_SURE] > 140);
    check("it would be before a member is active, by a rule that does not ask for one", run.empty_alarms > 2);
    run_both(eos_goes_dark);
    printf("the port with EOS goes dark\tdoubtful epochs\t%d\talarms\t%d\talarms by the ports' words\t%d\n", run.marks[LEVELSPRUCE_MARK_DOUBTFUL], run.alarms,
           run.port_alarms);
    check("alarm l is not raised where the port with EOS goes dark", run.refused == 0 && run.alarms == 0);
    check("it would be, by the words that ports show", run.port_alarms > 10 && run.marks[LEVELSPRUCE_MARK_DOUBTFUL] > 40);
    check("alarm l is raised where EOS is doubled", cries(NORM, EOS, EOS) && cries(EOS, NORM, EOS));
    check("alarm l is raised where EOS is lost", cries(NORM, NORM, NORM) && cries(NORM, NORM, DNU));
    check("alarm l is raised where EOS is not on the highest", cries(EOS, NORM, NORM));
    check("alarm l is not raised where EOS is on the highest that is active", !cries(NORM, EOS, DNU) && !cries(DNU, NORM, EOS));
}

/* How many frames of a healthy line are answered 12 before the first that is not, where its first frame is the k-th of an epoch. */
static int frames_to_step(long k)
{
    const uint8_t nothing[P] = { 0 };
    uint8_t h4[LEVELSPRUCE_PACKET_BYTES];
    long n;

    expect(levelspruce_receiver_start(SLOTS, P, W, sizeof store, receiver, rows) == LEVELSPRUCE_ANSWER_DONE);
    for (n = k; n < k + 100; n++) {
        expect(levelspruce_packet_write((uint32_t)(n / LEVELSPRUCE_EPOCH_FRAMES), LEVELSPRUCE_WORD_IDLE, 0, 0xFF, 0, 255, 0, h4, sizeof h4)
               == LEVELSPRUCE_ANSWER_DONE);
        if (levelspruce_receiver_frame(receiver, rows, 0, 0, h4[n % LEVELSPRUCE_EPOCH_FRAMES], nothing, P, store, sizeof store) != LEVELSPRUCE_ANSWER_STEP)
            break;
    }
    return (int)(n - k);
}

static void check_loss_of_multiframe(void)
{
    int most = 0;
    long k;

    for (k = 0; k < LEVELSPRUCE_EPOCH_FRAMES; k++)
        if (frames_to_step(k) > most)
            most = frames_to_step(k);
    check("a healthy port is in step at its 47th frame at the latest, so that LOM after 48 is not raised", most == 46);
}

static int wait_is_open(void)
{
    uint8_t board[LEVELSPRUCE_BOARD_BYTES];

    expect(levelspruce_sender_board(sender, sizeof sender, board, sizeof board) == LEVELSPRUCE_ANSWER_DONE);
    return board[LEVELSPRUCE_BOARD_WAIT];
}

/* Two members removed one after the other; between them an older packet comes again from a slower port. */
static void check_older_packet(void)
{
    memset(&run, 0, sizeof run);
    expect(levelspruce_sender_start(SLOTS, 0, sender, sizeof sender) == LEVELSPRUCE_ANSWER_DONE);
    expect(levelspruce_sender_add(sender, sizeof sender, 0) == LEVELSPRUCE_ANSWER_DONE);
    expect(levelspruce_sender_add(sender, sizeof sender, 1) == LEVELSPRUCE_ANSWER_DONE);
    expect(levelspruce_sender_remove(sender, sizeof sender, 0) == LEVELSPRUCE_ANSWER_DONE);
    expect(levelspruce_sender_report(sender, sizeof sender, 9, 0xFF, 1) == LEVELSPRUCE_ANSWER_DONE);
    expect(!wait_is_open());
    expect(levelspruce_sender_remove(sender, sizeof sender, 1) == LEVELSPRUCE_ANSWER_DONE);
    expect(levelspruce_sender_report(sender, sizeof sender, 10, 0xFF, 1) == LEVELSPRUCE_ANSWER_DONE);
    expect(wait_is_open());
    expect(levelspruce_sender_report(sender, sizeof sender, 8, 0xFF, 0) == LEVELSPRUCE_ANSWER_DONE);
    check("a packet older than one that was handed closes a wait too early", run.refused == 0 && !wait_is_open());
}

int main(void)
{
    check_alarm_l();
    check_loss_of_multiframe();
    check_lost_frames();
    check_restarts();
    check_older_packet();
    return tally();
}
