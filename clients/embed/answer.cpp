// The same in C++: a session that closes itself, and answers as strings.
// usage: answer_cpp TESS KIND ROOM [RULES], as answer.c
#include "wagbirelu.h"

#include <fstream>
#include <iostream>
#include <iterator>
#include <memory>
#include <string>
#include <vector>

namespace {

const std::uint8_t *bytes_of(const std::string &text)
{
    return reinterpret_cast<const std::uint8_t *>(text.data());
}

std::string read_file(const std::string &name)
{
    std::ifstream file(name, std::ios::binary);
    return {std::istreambuf_iterator<char>(file), {}};
}

struct Closer {
    void operator()(wagbirelu_session *session) const { wagbirelu_close(session); }
};

class Session {
public:
    // The session over the files of some words, with a room of some bytes. Where there is none its
    // status is thrown, and its line printed.
    explicit Session(const std::vector<std::string> &words) : room_(std::stoul(words[3]) + 1)
    {
        std::uint8_t line[WAGBIRELU_LINE] = {0};
        wagbirelu_session *session = nullptr;
        const std::string tess = read_file(words[1]);
        const auto kind = static_cast<std::uint32_t>(std::stoul(words[2]));
        std::uint32_t status;
        if (words.size() > 4) {
            const std::string rules = read_file(words[4]);
            status = wagbirelu_open(bytes_of(tess), tess.size(), bytes_of(rules), rules.size(), kind,
                                    line, sizeof line, &session);
        } else {
            status = wagbirelu_learn(bytes_of(tess), tess.size(), 50000, kind, line, sizeof line,
                                     &session);
        }
        if (status != WAGBIRELU_DONE) {
            std::cout << reinterpret_cast<const char *>(line);
            throw static_cast<int>(status);
        }
        session_.reset(session);
    }

    // What a line is answered with.
    std::string answer(const std::string &line)
    {
        const std::size_t size = room_.size() - 1;
        std::string all;
        std::uint64_t waited = call(line);
        while (waited > size) {
            all.append(room_.begin(), room_.begin() + static_cast<std::ptrdiff_t>(size));
            waited = call("");
        }
        return all.append(room_.begin(), room_.begin() + static_cast<std::ptrdiff_t>(waited));
    }

private:
    std::uint64_t call(const std::string &line)
    {
        const auto waited =
            wagbirelu_answer(session_.get(), bytes_of(line), line.size(), room_.data(), room_.size() - 1);
        if (wagbirelu_status(waited) != WAGBIRELU_DONE)
            throw static_cast<int>(wagbirelu_status(waited));
        return waited;
    }

    std::unique_ptr<wagbirelu_session, Closer> session_;
    std::vector<std::uint8_t> room_;
};

} // namespace

int main(int count, char **words)
try {
    Session session({words, words + count});
    std::ios::sync_with_stdio(false);
    for (std::string line; std::getline(std::cin, line);)
        std::cout << session.answer(line);
} catch (int status) {
    return status;
}
