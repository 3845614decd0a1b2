// Frames: a header of eight bytes, and a payload behind it.
#pragma once

#include <cstddef>
#include <cstdint>
#include <string>
#include <string_view>
#include <vector>

namespace frames {

constexpr size_t header_length = 8;

// How many bytes of a journal come at a time.
constexpr size_t piece_length = 64 * 1024;

struct Message {
    uint16_t type;
    std::string_view payload;
};

// Overwrites the first eight bytes of a frame by its header: the type, no flags, the length of the payload.
inline void put_header(std::string& frame, uint16_t type) {
    uint64_t word = (static_cast<uint64_t>(type) << 48) | (frame.size() - header_length);
    for (size_t at = 0; at < header_length; ++at) {
        frame[at] = static_cast<char>(word >> (8 * (header_length - 1 - at)));
    }
}

template <typename M>
std::string make_frame(uint16_t type, const M& record) {
    std::string frame(header_length, '\0');
    record.AppendToString(&frame);
    put_header(frame, type);
    return frame;
}

// Takes the bytes of a journal in pieces, and gives its messages. A payload stands until the next piece comes.
class Decoder {
public:
    // Puts the messages that are whole when this piece came behind those that are there.
    void take_messages(std::string_view piece, std::vector<Message>& messages) {
        buffer_.erase(0, taken_);
        taken_ = 0;
        buffer_.append(piece);
        Message message;
        while (take(message)) {
            messages.push_back(message);
        }
    }

private:
    bool take(Message& message) {
        std::string_view came = std::string_view(buffer_).substr(taken_);
        if (came.size() < header_length) {
            return false;
        }
        uint64_t word = 0;
        for (size_t at = 0; at < header_length; ++at) {
            word = (word << 8) | static_cast<unsigned char>(came[at]);
        }
        size_t length = word & 0xFFFFFFFF;
        if (came.size() - header_length < length) {
            return false;
        }
        message.type = static_cast<uint16_t>(word >> 48);
        message.payload = came.substr(header_length, length);
        taken_ += header_length + length;
        return true;
    }

    std::string buffer_;
    size_t taken_ = 0;
};

}  // namespace frames
