/* Each call on a handle that is closed, or that holds nothing to fetch, and each open on a handle that is open: the
 * answers, and that nothing else is written. */
#include "calls.h"

static jilqamur_window window = JILQAMUR_WINDOW_CLOSED;
static jilqamur_packetizer packetizer = JILQAMUR_PACKETIZER_CLOSED;
static jilqamur_depacketizer depacketizer = JILQAMUR_DEPACKETIZER_CLOSED;
static jilqamur_sender sender = JILQAMUR_SENDER_CLOSED;
static jilqamur_receiver receiver = JILQAMUR_RECEIVER_CLOSED;
static jilqamur_forwarder forwarder = JILQAMUR_FORWARDER_CLOSED;
static jilqamur_history history = JILQAMUR_HISTORY_CLOSED;
static jilqamur_requester requester = JILQAMUR_REQUESTER_CLOSED;
static jilqamur_end end = JILQAMUR_END_CLOSED;

static size_t size = 7;
static uint64_t number = 7;
static uint32_t word = 7;
static bool marker;
static jilqamur_unit unit;
static jilqamur_values values;
static jilqamur_placed placed;
static jilqamur_arrival arrival;
static jilqamur_remote remote;
static jilqamur_section section;
static jilqamur_row row = {.payload_type = 111, .clock_rate = 48000};
static const jilqamur_stream stream = {.first = 1, .mtu = 1200, .limit = 1400};
static const jilqamur_format format = {.clock_rate = 48000};
static const jilqamur_packetizer_params packets;
static const jilqamur_sender_params params = {.ssrc = 1, .payload_type = 111, .mtu = 1200, .limit = 1400};
static const uint8_t datagram[12] = {0x80};
static const uint64_t missing = 1;
static const uint32_t ssrc = 1;

#define SAY(call) say(#call, call)

static void of_codecs(void)
{
    SAY(jilqamur_window_receive(&window, datagram, 12, &number));
    SAY(jilqamur_packetizer_packetize(&packetizer, 10, datagram, 12, &size));
    SAY(jilqamur_packetizer_packet(&packetizer, 0, bytes, 9, &size, &marker));
    SAY(jilqamur_depacketizer_push(&depacketizer, 0, 0, false, datagram, 12));
    SAY(jilqamur_depacketizer_pop(&depacketizer));
    SAY(jilqamur_depacketizer_drain(&depacketizer));
    SAY(jilqamur_depacketizer_unit(&depacketizer, bytes, 9, &size, &unit));
    SAY(jilqamur_sender_push_sample(&sender, 0, datagram, 2000, &size));
    SAY(jilqamur_sender_datagram(&sender, 0, bytes, 9, &size));
    SAY(jilqamur_receiver_poll(&receiver));
    SAY(jilqamur_receiver_drain(&receiver));
    SAY(jilqamur_receiver_missing(&receiver, &number, 1, &size));
    SAY(jilqamur_receiver_pass_to(&receiver, 7));
    SAY(jilqamur_receiver_keep_within(&receiver, 7));
    SAY(jilqamur_receiver_unit(&receiver, bytes, 9, &size, &unit));
    SAY(jilqamur_forwarder_place(&forwarder, 0, 0, 0, &placed));
    SAY(jilqamur_forwarder_forward(&forwarder, 0, 0, 0, true, &placed));
    SAY(jilqamur_forwarder_pass_empty(&forwarder, 0, 0));
    SAY(jilqamur_history_keep(&history, 0, datagram, 12));
    SAY(jilqamur_history_asked(&history, 0, bytes, 9, &size));
    SAY(jilqamur_requester_ask(&requester, &missing, 1, 0, 0, &number, 1, &size));
}

static void of_closed(void)
{
    SAY(jilqamur_receiver_push(&receiver, 0, 0, false, datagram, 12, &number));
    SAY(jilqamur_forwarder_switch(&forwarder, 0, 0, 0, 0));
    SAY(jilqamur_forwarder_skip_to(&forwarder, 0));
    SAY(jilqamur_forwarder_end_at(&forwarder, 0));
    SAY(jilqamur_forwarder_next(&forwarder, &number));
    SAY(jilqamur_end_row(&end, &row, JILQAMUR_TEXT("opus"), JILQAMUR_TEXT("")));
    SAY(jilqamur_end_default_rows(&end));
    SAY(jilqamur_end_extension(&end, 1, JILQAMUR_TEXT("urn:a")));
    SAY(jilqamur_end_make(&end, 0));
    SAY(jilqamur_end_section_repair(&end, 1, 2));
    SAY(jilqamur_end_section(&end, JILQAMUR_TEXT("0"), false, true, true, &ssrc, 1));
    SAY(jilqamur_end_text(&end, bytes, 9, &size));
    SAY(jilqamur_end_request(&end, true, true, true, &ssrc, 1));
    SAY(jilqamur_end_take_types(&end, datagram, 12));
    SAY(jilqamur_end_for_browser(&end, datagram, 12, 0, false, JILQAMUR_TEXT(""), JILQAMUR_TEXT(""), JILQAMUR_TEXT(""),
                                 datagram, 12));
    SAY(jilqamur_end_remote(&end, &remote));
}

static void of_ends(void)
{
    SAY(jilqamur_end_offer(&end));
    SAY(jilqamur_end_answer(&end, JILQAMUR_TEXT("v=0")));
    SAY(jilqamur_end_accept(&end, JILQAMUR_TEXT("v=0")));
    SAY(jilqamur_end_withdraw(&end));
    SAY(jilqamur_end_answer_browser(&end, JILQAMUR_TEXT("v=0")));
    SAY(jilqamur_end_accept_browser(&end, JILQAMUR_TEXT("v=0")));
    SAY(jilqamur_end_remote_text(&end, 0, bytes, 9, &size));
    SAY(jilqamur_end_remote_candidate(&end, 0, bytes, 9, &size));
    SAY(jilqamur_end_agreed_section(&end, 0, bytes, 9, &size, &section));
    SAY(jilqamur_end_agreed_row(&end, 0, 0, bytes, 9, &size, &row));
    SAY(jilqamur_end_agreed_ssrc(&end, 0, 0, &word));
    SAY(jilqamur_end_open_sender(&end, JILQAMUR_TEXT("0"), 1, 111, &stream, JILQAMUR_TEXT(""), &size));
    SAY(jilqamur_end_open_receiver(&end, JILQAMUR_TEXT("0"), 1, 111, 2, JILQAMUR_MIN_HELD, &size));
    SAY(jilqamur_end_open_unsignalled(&end, JILQAMUR_TEXT("0"), 1, 111, 2, JILQAMUR_MIN_HELD, &size));
    SAY(jilqamur_end_push_sample(&end, 0, 0, &values, JILQAMUR_TEXT(""), datagram, 12, &size));
    SAY(jilqamur_end_repair(&end, 0, datagram, 12));
    SAY(jilqamur_end_datagram(&end, 0, bytes, 9, &size));
    SAY(jilqamur_end_receive(&end, datagram, 12, &size, &number));
    SAY(jilqamur_end_poll(&end, 0));
    SAY(jilqamur_end_drain(&end, 0));
    SAY(jilqamur_end_unit(&end, bytes, 9, &size, &unit));
    SAY(jilqamur_end_values(&end, &values));
    SAY(jilqamur_end_arrival(&end, datagram, 12, &size, &arrival, &values));
    SAY(jilqamur_end_take_number(&end, 0, 0, &number));
    SAY(jilqamur_end_send_packet(&end, 0, 0, 0, false, &values, JILQAMUR_TEXT(""), datagram, 12));
    SAY(jilqamur_end_missing(&end, 0, &number, 1, &size));
    SAY(jilqamur_end_is_passed(&end, 0, 0));
    SAY(jilqamur_end_pass_to(&end, 0, 0));
    SAY(jilqamur_end_pass_empty(&end, 0, 0));
    SAY(jilqamur_end_keep_within(&end, 0, 0));
    SAY(jilqamur_end_next_number(&end, 0, &number));
    SAY(jilqamur_end_skip_to(&end, 0, 0));
    SAY(jilqamur_end_close_sender(&end, 0));
    SAY(jilqamur_end_close_receiver(&end, 0));
}

static void open_all(void)
{
    SAY(jilqamur_window_open(&window));
    SAY(jilqamur_packetizer_open(&packetizer, &packets, &format, JILQAMUR_TEXT("AMR-WB")));
    SAY(jilqamur_depacketizer_open(&depacketizer, &format, JILQAMUR_TEXT("opus"), 2, JILQAMUR_MIN_HELD));
    SAY(jilqamur_sender_open(&sender, &params, &format, JILQAMUR_TEXT("opus")));
    SAY(jilqamur_receiver_open(&receiver, &format, JILQAMUR_TEXT("opus"), 2, JILQAMUR_MIN_HELD));
    SAY(jilqamur_forwarder_open(&forwarder, 7));
    SAY(jilqamur_history_open(&history, 7, 7));
    SAY(jilqamur_requester_open(&requester, 7, 7));
    SAY(jilqamur_end_open(&end));
}

static void close_all(void)
{
    SAY(jilqamur_window_close(&window));
    SAY(jilqamur_packetizer_close(&packetizer));
    SAY(jilqamur_depacketizer_close(&depacketizer));
    SAY(jilqamur_sender_close(&sender));
    SAY(jilqamur_receiver_close(&receiver));
    SAY(jilqamur_forwarder_close(&forwarder));
    SAY(jilqamur_history_close(&history));
    SAY(jilqamur_requester_close(&requester));
    SAY(jilqamur_end_close(&end));
}

int main(void)
{
    of_codecs();
    of_closed();
    of_ends();
    close_all();
    printf("written %zu %" PRIu64 " %" PRIu32 "\n", size, number, word);
    printf("== open\n");
    open_all();
    open_all();
    of_ends();
    printf("written %zu %" PRIu64 " %" PRIu32 "\n", size, number, word);
    close_all();
    close_all();
    return 0;
}
