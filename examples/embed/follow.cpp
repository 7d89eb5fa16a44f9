// A control program over UDP in C++: it lights the lamp, and the two valves follow the first two switches.
//
//     follow CYCLES < TABLE
//
// A segment of the table answers on port 34980 of this computer. The program ends with status 1 if a cycle isn't taken.
#include "ecat.h"

#include <arpa/inet.h>
#include <array>
#include <chrono>
#include <iostream>
#include <iterator>
#include <poll.h>
#include <stdexcept>
#include <string>
#include <sys/socket.h>
#include <thread>
#include <unistd.h>
#include <utility>

using Clock = std::chrono::steady_clock;
using Payload = std::array<std::uint8_t, 1500>;

// A socket to the segment, which waits half a second for the answers to its last frame.
class Wire {
public:
    explicit Wire(std::uint16_t port) : socket_(::socket(AF_INET, SOCK_DGRAM, 0)) {
        sockaddr_in at{};
        at.sin_family = AF_INET;
        at.sin_port = htons(port);
        at.sin_addr.s_addr = htonl(INADDR_LOOPBACK);
        if (connect(socket_, reinterpret_cast<const sockaddr *>(&at), sizeof at) != 0) throw std::runtime_error("there is no such socket");
    }
    ~Wire() { ::close(socket_); }
    Wire(const Wire &) = delete;
    Wire &operator=(const Wire &) = delete;

    void send(const Payload &frame, std::size_t len) {
        ::send(socket_, frame.data(), len, 0);
        end_ = Clock::now() + std::chrono::milliseconds(500);
    }

    // The length of the next payload, or 0 if none came in time.
    std::size_t receive(Payload &payload) {
        const auto left = std::chrono::duration_cast<std::chrono::milliseconds>(end_ - Clock::now()).count();
        pollfd ready{socket_, POLLIN, 0};
        if (left <= 0 || poll(&ready, 1, static_cast<int>(left)) <= 0) return 0;
        const auto len = recv(socket_, payload.data(), payload.size(), 0);
        return len > 0 ? static_cast<std::size_t>(len) : 0;
    }

private:
    int socket_;
    Clock::time_point end_{};
};

// The master of a table. It is dropped with its owner, and can be moved and not copied.
class Master {
public:
    explicit Master(const std::string &table) {
        ecat_refusal refusal;
        if (ecat_open(&m_, table.data(), table.size(), &refusal) != 0) throw std::runtime_error("the table is refused: " + std::string(refusal.name));
    }
    ~Master() { ecat_drop(&m_); }
    Master(Master &&other) noexcept : m_(std::exchange(other.m_, ecat{})) {}
    Master &operator=(Master &&other) noexcept {
        std::swap(m_, other.m_);
        return *this;
    }

    std::size_t variable(const std::string &name) const {
        const long number = ecat_variable(&m_, name.c_str());
        if (number < 0) throw std::out_of_range("the table lacks " + name);
        return static_cast<std::size_t>(number);
    }
    std::uint64_t get(std::size_t variable) const { return ecat_get(&m_, variable); }
    void set(std::size_t variable, std::uint64_t value) {
        if (!ecat_set(&m_, variable, value)) throw std::out_of_range("the variable doesn't hold this value");
    }

    // Sends each frame of the start-up, and waits for its answer. Before a poll that asks again it rests.
    void bring_up(Wire &wire) {
        while (ecat_phase(&m_) == 0) {
            std::size_t len = ecat_next(&m_, frame_.data(), frame_.size());
            if (len == 0) break;
            if (ecat_waits(&m_)) std::this_thread::sleep_for(std::chrono::milliseconds(10));
            wire.send(frame_, len);
            while ((len = wire.receive(payload_)) != 0 && !ecat_take(&m_, payload_.data(), len, nullptr)) {}
            if (len == 0) ecat_give_up(&m_);
        }
        if (ecat_phase(&m_) == 1) return;
        std::array<char, ECAT_WORDS> words{};
        ecat_explain(&m_, words.data(), words.size());
        throw std::runtime_error(std::string("the start-up failed: ") + words.data());
    }

    // Sends the frames of a cycle, and takes payloads until none is missing. A late or foreign one changes nothing.
    bool cycle(Wire &wire) {
        std::size_t missing = 1;
        const int parts = ecat_begin(&m_);
        for (int part = 0; part < parts; part++) wire.send(frame_, ecat_part(&m_, static_cast<std::size_t>(part), frame_.data(), frame_.size()));
        while (missing != 0) {
            const std::size_t len = wire.receive(payload_);
            if (len == 0) break;
            ecat_take(&m_, payload_.data(), len, &missing);
        }
        return ecat_close(&m_, nullptr, nullptr);
    }

private:
    ecat m_{};
    Payload frame_{}, payload_{};
};

int main(int argc, char **argv) try {
    const int cycles = argc > 1 ? std::stoi(argv[1]) : 10;
    Master m(std::string(std::istreambuf_iterator<char>(std::cin), {}));
    const auto lamp = m.variable("lamp"), valves = m.variable("valves"), switches = m.variable("switches");
    Wire wire(34980);
    m.bring_up(wire);
    m.set(lamp, 1);
    int taken = 0;
    for (int k = 0; k < cycles; k++) {
        taken += m.cycle(wire);
        m.set(valves, m.get(switches) & 3);
    }
    std::cout << "cycles " << taken << " switches " << m.get(switches) << " valves " << m.get(valves) << "\n";
    return taken == cycles ? 0 : 1;
} catch (const std::exception &failure) {
    std::cerr << "follow: " << failure.what() << "\n";
    return 4;
}
