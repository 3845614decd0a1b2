// protobuf_times COUNT: what `bench_machine protocol` does, by Google's protobuf. It prints the same lines.
#include "frames.h"
#include "samples.h"

#include <cstdio>
#include <cstdlib>
#include <string>
#include <string_view>
#include <time.h>
#include <vector>

namespace {

using frames::Message;

constexpr uint16_t first_command = 0x0400;

// How many records are written between two looks at the clock.
constexpr size_t block_length = 512;

// About how many messages a piece has.
constexpr size_t messages_of_a_piece = 1024;

// Processor time in nanoseconds.
struct Clocked {
    uint64_t reading = 0;
    uint64_t writing = 0;
};

[[noreturn]] void fail(const char* why) {
    std::fprintf(stderr, "%s\n", why);
    std::exit(1);
}

// The processor time that this thread used, in nanoseconds.
uint64_t now() {
    timespec time;
    if (clock_gettime(CLOCK_THREAD_CPUTIME_ID, &time) != 0) {
        fail("no clock");
    }
    return static_cast<uint64_t>(time.tv_sec) * 1000000000 + static_cast<uint64_t>(time.tv_nsec);
}

template <typename M>
void parse(M& record, std::string_view payload) {
    if (!record.ParseFromArray(payload.data(), static_cast<int>(payload.size()))) {
        fail("a payload is refused");
    }
}

template <typename M>
void read_as(std::string_view payload) {
    M record;
    parse(record, payload);
}

template <typename M>
std::string rewrite_as(uint16_t type, std::string_view payload) {
    M record;
    parse(record, payload);
    return frames::make_frame(type, record);
}

// The time of writing alone.
template <typename M>
uint64_t time_writing(uint16_t type, const std::string* payloads, size_t count) {
    std::vector<M> records(count);
    for (size_t i = 0; i < count; ++i) {
        parse(records[i], payloads[i]);
    }
    auto start = now();
    for (const M& record : records) {
        std::string frame = frames::make_frame(type, record);
    }
    return now() - start;
}

template <typename M>
Clocked time_messages(uint16_t type, const std::vector<std::string>& payloads) {
    Clocked took;
    auto start = now();
    for (const std::string& payload : payloads) {
        read_as<M>(payload);
    }
    took.reading = now() - start;
    for (size_t at = 0; at < payloads.size(); at += block_length) {
        size_t left = payloads.size() - at;
        took.writing += time_writing<M>(type, &payloads[at], left < block_length ? left : block_length);
    }
    return took;
}

struct Command {
    const char* name;
    std::string frame;
    void (*read)(std::string_view);
    std::string (*rewrite)(uint16_t, std::string_view);
    Clocked (*time)(uint16_t, const std::vector<std::string>&);
};

// In the order of their types, which follow one another.
class Commands {
public:
    Commands() {
        using namespace hengomaru;
        add("InputCommand", samples::input());
        add("OutputCommand", samples::output());
        add("GetLazyStateCommand", samples::keyed(samples::completed<GetLazyStateCommand>(8), "count"));
        add("SetStateCommand", samples::set_state());
        add("ClearStateCommand", samples::keyed(samples::named<ClearStateCommand>(), "count"));
        add("ClearAllStateCommand", samples::named<ClearAllStateCommand>());
        add("GetLazyStateKeysCommand", samples::completed<GetLazyStateKeysCommand>(9));
        add("GetEagerStateCommand", samples::get_eager_state());
        add("GetEagerStateKeysCommand", samples::get_eager_state_keys());
        add("GetPromiseCommand", samples::keyed(samples::completed<GetPromiseCommand>(10), "done"));
        add("PeekPromiseCommand", samples::keyed(samples::completed<PeekPromiseCommand>(11), "done"));
        add("CompletePromiseCommand", samples::complete_promise());
        add("SleepCommand", samples::sleep());
        add("CallCommand", samples::call());
        add("OneWayCallCommand", samples::one_way_call());
        add("SendSignalCommand", samples::send_signal());
        add("RunCommand", samples::completed<RunCommand>(13));
        add("AttachInvocationCommand", samples::attach_invocation());
        add("GetInvocationOutputCommand", samples::get_invocation_output());
        add("CompleteAwakeableCommand", samples::complete_awakeable());
    }

    size_t size() const { return list_.size(); }

    const Command& at(size_t place) const { return list_.at(place); }

    const Command& of(uint16_t type) const { return list_.at(static_cast<size_t>(type - first_command)); }

private:
    template <typename M>
    void add(const char* name, const M& sample) {
        uint16_t type = static_cast<uint16_t>(first_command + list_.size());
        list_.push_back({name, frames::make_frame(type, sample), read_as<M>, rewrite_as<M>, time_messages<M>});
    }

    std::vector<Command> list_;
};

std::string make_journal(const Commands& commands, unsigned long count) {
    std::string journal;
    for (unsigned long at = 0; at < count; ++at) {
        journal += commands.at(at % commands.size()).frame;
    }
    return journal;
}

unsigned long each(uint64_t took, unsigned long count) { return took / (count == 0 ? 1 : count); }

unsigned long speed(uint64_t took, unsigned long bytes) { return bytes * 1000 / (took == 0 ? 1 : took); }

// The FNV-1a hash of bytes, in 64 bits.
uint64_t checksum(std::string_view bytes) {
    uint64_t hash = 0xcbf29ce484222325u;
    for (char byte : bytes) {
        hash = (hash ^ static_cast<unsigned char>(byte)) * 0x100000001b3u;
    }
    return hash;
}

// The next bytes of a journal.
std::string_view piece_of(std::string_view journal) { return journal.substr(0, frames::piece_length); }

void print_commands(const Commands& commands, std::string_view journal) {
    std::vector<std::vector<std::string>> lists(commands.size());
    frames::Decoder decoder;
    for (; !journal.empty(); journal.remove_prefix(piece_of(journal).size())) {
        std::vector<Message> messages;
        decoder.take_messages(piece_of(journal), messages);
        for (const Message& message : messages) {
            lists.at(static_cast<size_t>(message.type - first_command)).emplace_back(message.payload);
        }
    }
    for (size_t place = 0; place < lists.size(); ++place) {
        const std::vector<std::string>& payloads = lists[place];
        if (payloads.empty()) {
            continue;
        }
        const Command& command = commands.at(place);
        uint16_t type = static_cast<uint16_t>(first_command + place);
        Clocked took = command.time(type, payloads);
        std::printf("%s read %lu write %lu frames %zu ", command.name, each(took.reading, payloads.size()),
                    each(took.writing, payloads.size()), payloads.size());
        for (char byte : command.rewrite(type, payloads[0])) {
            std::printf("%02x", static_cast<unsigned char>(byte));
        }
        std::printf("\n");
    }
}

// What a whole journal takes, in its order.
struct Whole {
    unsigned long count = 0;
    uint64_t framing = 0;
    uint64_t reading = 0;
    uint64_t rewriting = 0;
    std::string written;
};

void time_piece(const Commands& commands, frames::Decoder& decoder, std::string_view piece, Whole& whole) {
    auto start = now();
    std::vector<Message> messages;
    messages.reserve(messages_of_a_piece);
    decoder.take_messages(piece, messages);
    auto framed = now();
    for (const Message& message : messages) {
        commands.of(message.type).read(message.payload);
    }
    auto read = now();
    for (const Message& message : messages) {
        whole.written += commands.of(message.type).rewrite(message.type, message.payload);
    }
    auto written = now();
    whole.count += messages.size();
    whole.framing += framed - start;
    whole.reading += read - framed;
    whole.rewriting += written - read;
}

void print_whole(const Commands& commands, std::string_view journal) {
    Whole whole;
    whole.written.reserve(journal.size());
    frames::Decoder decoder;
    for (std::string_view rest = journal; !rest.empty(); rest.remove_prefix(piece_of(rest).size())) {
        time_piece(commands, decoder, piece_of(rest), whole);
    }
    uint64_t reading = whole.framing + whole.reading;
    uint64_t writing = whole.rewriting < whole.reading ? 0 : whole.rewriting - whole.reading;
    std::printf("journal frames %lu bytes %zu framing %lu read %lu write %lu MB/s %lu %lu checksum %016lx %s\n",
                whole.count, journal.size(), each(whole.framing, whole.count), each(reading, whole.count),
                each(writing, whole.count), speed(reading, journal.size()), speed(writing, journal.size()),
                checksum(whole.written), whole.written == journal ? "same" : "OTHER");
}

}  // namespace

int main(int count, char** words) {
    if (count < 2) {
        return 0;
    }
    Commands commands;
    std::string journal = make_journal(commands, std::strtoul(words[1], nullptr, 10));
    print_commands(commands, journal);
    print_whole(commands, journal);
    return 0;
}
