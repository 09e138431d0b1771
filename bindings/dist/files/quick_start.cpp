// Two ends agree on Opus; one sends three samples, and the other prints them.
#include <cstdio>
#include <memory>
#include <stdexcept>
#include <string>
#include <vector>

#include "jilqamur.h"

namespace {

void check(uint32_t answer)
{
    if (answer != JILQAMUR_OK)
        throw std::runtime_error(jilqamur_error_text(answer));
}

const uint8_t *bytes(const std::string &text)
{
    return reinterpret_cast<const uint8_t *>(text.data());
}

// An end, closed where it goes out of scope. It may be moved, but not copied.
class End {
    struct Closing {
        void operator()(jilqamur_end *end) const
        {
            jilqamur_end_close(end);
            delete end;
        }
    };
    std::unique_ptr<jilqamur_end, Closing> end{new jilqamur_end JILQAMUR_END_CLOSED};

    std::string text()
    {
        size_t needed = 0;
        uint8_t none = 0;
        jilqamur_end_text(get(), &none, 0, &needed);
        std::vector<uint8_t> copied(needed);
        check(jilqamur_end_text(get(), copied.data(), copied.size(), &needed));
        return {copied.begin(), copied.end()};
    }

    void want_audio(uint32_t ssrc)
    {
        check(jilqamur_end_section(get(), JILQAMUR_TEXT("0"), false, true, true, &ssrc, 1));
    }

public:
    explicit End(uint64_t session)
    {
        jilqamur_row opus{};
        opus.payload_type = 111;
        opus.clock_rate = 48000;
        opus.has_channels = true;
        opus.channels = 2;
        check(jilqamur_end_open(get()));
        check(jilqamur_end_row(get(), &opus, JILQAMUR_TEXT("opus"), JILQAMUR_TEXT("minptime=10;useinbandfec=1")));
        check(jilqamur_end_make(get(), session));
    }

    jilqamur_end *get() { return end.get(); }

    std::string offer(uint32_t ssrc)
    {
        want_audio(ssrc);
        check(jilqamur_end_offer(get()));
        return text();
    }

    std::string answer(const std::string &offer, uint32_t ssrc)
    {
        want_audio(ssrc);
        check(jilqamur_end_answer(get(), bytes(offer), offer.size()));
        return text();
    }

    void accept(const std::string &answer) { check(jilqamur_end_accept(get(), bytes(answer), answer.size())); }
};

void receive(End &end, const uint8_t *datagram, size_t len)
{
    size_t stream = 0, needed = 0;
    uint64_t number = 0;
    uint8_t frame[1500];
    jilqamur_unit unit;
    if (jilqamur_end_receive(end.get(), datagram, len, &stream, &number) != JILQAMUR_OK)
        return;
    while (jilqamur_end_poll(end.get(), stream) == JILQAMUR_OK) {
        check(jilqamur_end_unit(end.get(), frame, sizeof frame, &needed, &unit));
        std::printf("at %u: ", unit.time);
        for (size_t i = 0; i < needed; i++)
            std::printf("%s%d", i ? ", " : "[", frame[i]);
        std::printf("]\n");
    }
}

} // namespace

int main()
{
    End a(1), b(2);
    jilqamur_stream params{};
    jilqamur_values none{};
    size_t sender = 0, receiver = 0, count = 0, len = 0;
    uint8_t datagram[1400];
    params.first = 1000;
    params.mtu = 1200;
    params.limit = sizeof datagram;
    a.accept(b.answer(a.offer(44), 45));
    check(jilqamur_end_open_sender(a.get(), JILQAMUR_TEXT("0"), 44, 111, &params, JILQAMUR_TEXT(""), &sender));
    check(jilqamur_end_open_receiver(b.get(), JILQAMUR_TEXT("0"), 44, 111, 4, JILQAMUR_MIN_HELD, &receiver));
    for (uint8_t k = 0; k < 3; k++) {
        const uint8_t sample[] = {k, 2, 3};
        check(jilqamur_end_push_sample(a.get(), sender, 960 * k, &none, JILQAMUR_TEXT(""), sample, sizeof sample, &count));
        for (size_t i = 0; i < count; i++) {
            check(jilqamur_end_datagram(a.get(), i, datagram, sizeof datagram, &len));
            receive(b, datagram, len);
        }
    }
}
