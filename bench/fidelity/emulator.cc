// A trace-driven link between two TUN devices, in real time: the link that `ccp` models, for the senders of a kernel.
//
//     emulator DEVICE-A DEVICE-B TRACE QUEUE DELAYS END LOG [LOSSES]
//
// A data packet (600 bytes or more) from device A waits in a drop-tail queue of QUEUE packets for a chance of the trace,
// and then leaves from device B. Half of the delay comes after the chance, the other half on the way back. Packets without
// data wait for no chance. The trace begins at the first data packet, and anew after its last time. DELAYS are those of the
// flows in microseconds, with commas between: the flow with the number n is that of the port 5001 + n. END is a number of
// segments of one flow, or seconds, as 50s. LOSSES is a file of the numbers of data packets, from 0, that are lost however
// short the queue is.
//
// LOG gets a line for each data packet in the order in which they came: its time in microseconds, its sequence number, its
// wait in microseconds, or -1 where it was lost, and of several flows the number of its flow. It prints `ready` when the
// devices are there, and ends when as many different segments have left and would be acknowledged, after the seconds, or
// by SIGTERM. Then it prints what it did on one line: the time of the first data packet on the monotonic clock, and how
// late packets left: their mean, 95th percentile and maximum.
#include <algorithm>
#include <cerrno>
#include <csignal>
#include <cstdint>
#include <cstdio>
#include <cstdlib>
#include <cstring>
#include <ctime>
#include <deque>
#include <fcntl.h>
#include <fstream>
#include <linux/if.h>
#include <linux/if_tun.h>
#include <poll.h>
#include <sstream>
#include <string>
#include <sys/ioctl.h>
#include <sys/prctl.h>
#include <unistd.h>
#include <unordered_set>
#include <vector>

namespace
{

constexpr int64_t NANOSECONDS = 1'000'000'000;
constexpr size_t PACKET_BYTES = 2048;
constexpr ssize_t DATA_BYTES = 600;
constexpr int READ_AT_ONCE = 64;
constexpr size_t FIRST_PORT = 5001;

volatile sig_atomic_t is_stopped = 0;

int64_t
now_ns()
{
    timespec time{};
    clock_gettime(CLOCK_MONOTONIC, &time);
    return time.tv_sec * NANOSECONDS + time.tv_nsec;
}

[[noreturn]] void
fail(const std::string& what)
{
    std::fprintf(stderr, "emulator: %s: %s\n", what.c_str(), std::strerror(errno));
    std::exit(1);
}

std::vector<int64_t>
numbers_in(const char* path)
{
    std::ifstream file(path);
    if (!file)
    {
        fail(path);
    }
    std::vector<int64_t> found;
    for (int64_t number = 0; file >> number;)
    {
        found.push_back(number);
    }
    return found;
}

int
open_device(const char* name)
{
    const int file = open("/dev/net/tun", O_RDWR | O_NONBLOCK);
    ifreq request{};
    request.ifr_flags = IFF_TUN | IFF_NO_PI;
    std::strncpy(request.ifr_name, name, IFNAMSIZ - 1);
    if (file < 0 || ioctl(file, TUNSETIFF, &request) < 0)
    {
        fail(std::string("the device ") + name);
    }
    return file;
}

// The chances of a trace, and the packets that wait for them.
class Link
{
  public:
    Link(std::vector<int64_t> times, size_t queue)
        : times_(std::move(times)),
          queue_(queue)
    {
    }

    // The chance of a packet that comes now, or -1 where the queue is full. Both in nanoseconds of the trace.
    int64_t enter(int64_t now)
    {
        while (!taken_.empty() && taken_.front() <= now)
        {
            taken_.pop_front();
        }
        if (taken_.size() >= queue_)
        {
            return -1;
        }
        while (chance(next_) < now)
        {
            ++next_;
        }
        taken_.push_back(chance(next_++));
        return taken_.back();
    }

  private:
    int64_t chance(uint64_t number) const
    {
        const int64_t turns = static_cast<int64_t>(number / times_.size());
        return 1'000'000 * (turns * times_.back() + times_[number % times_.size()]);
    }

    std::vector<int64_t> times_;
    size_t queue_;
    uint64_t next_ = 0;
    std::deque<int64_t> taken_; // chances after now
};

// When a run ends: with some segments of one flow, or after a time.
struct End
{
    uint64_t segments;
    int64_t after_ns;
};

struct Packet
{
    int64_t due;
    size_t flow;
    ssize_t length;
    unsigned char bytes[PACKET_BYTES];
};

uint32_t
sequence_of(const Packet& packet)
{
    const unsigned char* tcp = packet.bytes + 4 * (packet.bytes[0] & 15);
    return uint32_t(tcp[4]) << 24 | uint32_t(tcp[5]) << 16 | uint32_t(tcp[6]) << 8 | tcp[7];
}

// The flow of a packet from device A (0) or B (1), by the receiver's port.
size_t
flow_of(const Packet& packet, int from)
{
    const unsigned char* tcp = packet.bytes + 4 * (packet.bytes[0] & 15) + (from == 0 ? 2 : 0);
    return (size_t(tcp[0]) << 8 | tcp[1]) - FIRST_PORT;
}

bool
is_tcp(const Packet& packet)
{
    return packet.bytes[0] >> 4 == 4 && packet.bytes[9] == 6;
}

class Emulator
{
  public:
    Emulator(Link link, std::vector<int64_t> halves, End end, std::vector<int64_t> losses, std::FILE* log)
        : link_(std::move(link)),
          halves_(std::move(halves)),
          wanted_(end),
          losses_(losses.begin(), losses.end()),
          log_(log)
    {
        for (std::vector<std::deque<Packet>>& lines : lines_)
        {
            lines.resize(halves_.size());
        }
    }

    void run(const int (&devices)[2])
    {
        while (!is_stopped && !is_done())
        {
            send_due(devices);
            if (!read_some(devices))
            {
                wait(devices);
            }
        }
    }

    void print_summary()
    {
        std::sort(late_.begin(), late_.end());
        int64_t sum = 0;
        for (int64_t late : late_)
        {
            sum += late;
        }
        const size_t count = late_.size();
        const int64_t mean = count ? sum / static_cast<int64_t>(count) : 0;
        const int64_t p95 = count ? late_[(95 * count + 99) / 100 - 1] : 0;
        std::printf("begin_ns=%lld segments=%zu packets=%zu late_mean_us=%.1f late_p95_us=%.1f late_most_us=%.1f\n",
                    static_cast<long long>(begin_), seen_.size(), count, mean / 1e3, p95 / 1e3, count ? late_.back() / 1e3 : 0.0);
    }

  private:
    bool is_done() const
    {
        return end_ && now_ns() > end_;
    }

    void send_due(const int (&devices)[2])
    {
        for (int from = 0; from < 2; ++from)
        {
            for (std::deque<Packet>* line = first_due(from); line && line->front().due <= now_ns(); line = first_due(from))
            {
                const Packet& packet = line->front();
                if (write(devices[1 - from], packet.bytes, packet.length) < 0 && errno != EAGAIN)
                {
                    fail("a packet");
                }
                late_.push_back(now_ns() - packet.due);
                line->pop_front();
            }
        }
    }

    // The line of a device, of a flow each, whose first packet leaves first; none where no packet waits.
    std::deque<Packet>* first_due(int from)
    {
        std::deque<Packet>* found = nullptr;
        for (std::deque<Packet>& line : lines_[from])
        {
            if (!line.empty() && (!found || line.front().due < found->front().due))
            {
                found = &line;
            }
        }
        return found;
    }

    bool read_some(const int (&devices)[2])
    {
        bool is_any = false;
        for (int from = 0; from < 2; ++from)
        {
            for (int count = 0; count < READ_AT_ONCE; ++count)
            {
                Packet packet;
                packet.length = read(devices[from], packet.bytes, sizeof packet.bytes);
                if (packet.length <= 0)
                {
                    break;
                }
                is_any = true;
                packet.flow = is_tcp(packet) ? flow_of(packet, from) : halves_.size();
                if (packet.flow < halves_.size())
                {
                    take(packet, from);
                }
            }
        }
        return is_any;
    }

    void take(Packet& packet, int from)
    {
        const int64_t now = now_ns();
        packet.due = now + halves_[packet.flow];
        if (from == 0 && packet.length >= DATA_BYTES)
        {
            const int64_t chance = chance_of(packet, now);
            if (chance < 0)
            {
                return;
            }
            packet.due = begin_ + chance + halves_[packet.flow];
        }
        lines_[from][packet.flow].push_back(packet);
    }

    // The chance of a data packet, or -1 where it is lost; it is written to the log.
    int64_t chance_of(const Packet& packet, int64_t now)
    {
        if (!begin_)
        {
            begin_ = now;
            end_ = wanted_.after_ns ? now + wanted_.after_ns : 0;
        }
        const int64_t at = now - begin_;
        const int64_t chance = losses_.count(count_++) ? -1 : link_.enter(at);
        const uint32_t sequence = sequence_of(packet);
        const long long wait = chance < 0 ? -1 : (chance - at) / 1000;
        std::fprintf(log_, "%lld %u %lld", static_cast<long long>(at / 1000), sequence, wait);
        std::fprintf(log_, halves_.size() > 1 ? " %zu\n" : "\n", packet.flow);
        if (chance >= 0 && wanted_.segments && seen_.insert(sequence).second && seen_.size() == wanted_.segments)
        {
            end_ = begin_ + chance + 2 * halves_[packet.flow];
        }
        return chance;
    }

    void wait(const int (&devices)[2]) const
    {
        int64_t left = NANOSECONDS / 10;
        for (const std::vector<std::deque<Packet>>& lines : lines_)
        {
            for (const std::deque<Packet>& line : lines)
            {
                if (!line.empty())
                {
                    left = std::min(left, line.front().due - now_ns());
                }
            }
        }
        timespec time{0, std::max<int64_t>(0, left)};
        pollfd polled[2] = {{devices[0], POLLIN, 0}, {devices[1], POLLIN, 0}};
        ppoll(polled, 2, &time, nullptr);
    }

    Link link_;
    std::vector<int64_t> halves_; // of the flows' delays, in nanoseconds
    End wanted_;
    std::unordered_set<int64_t> losses_;
    std::FILE* log_;
    std::vector<std::deque<Packet>> lines_[2]; // packets from each device and of each flow, by the time at which they leave
    std::unordered_set<uint32_t> seen_;
    std::vector<int64_t> late_;
    int64_t begin_ = 0, end_ = 0, count_ = 0;
};

// Halves of the delays in a list of microseconds, in nanoseconds.
std::vector<int64_t>
halves_in(const std::string& list)
{
    std::vector<int64_t> found;
    std::stringstream words(list);
    for (std::string word; std::getline(words, word, ',');)
    {
        found.push_back(500 * std::atoll(word.c_str()));
    }
    return found;
}

End
end_in(const std::string& word)
{
    const uint64_t number = std::strtoull(word.c_str(), nullptr, 10);
    return word.back() == 's' ? End{0, static_cast<int64_t>(number) * NANOSECONDS} : End{number, 0};
}

void
stop(int)
{
    is_stopped = 1;
}

} // namespace

int
main(int argc, char** argv)
{
    if (argc != 8 && argc != 9)
    {
        std::fprintf(stderr, "emulator: DEVICE-A DEVICE-B TRACE QUEUE DELAYS END LOG [LOSSES] are expected\n");
        return 2;
    }
    const int devices[2] = {open_device(argv[1]), open_device(argv[2])};
    std::FILE* log = std::fopen(argv[7], "w");
    if (!log)
    {
        fail(argv[7]);
    }
    Emulator emulator(Link(numbers_in(argv[3]), std::strtoull(argv[4], nullptr, 10)), halves_in(argv[5]), end_in(argv[6]),
                      argc == 9 ? numbers_in(argv[8]) : std::vector<int64_t>(), log);
    std::signal(SIGTERM, stop);
    std::signal(SIGINT, stop);
    prctl(PR_SET_TIMERSLACK, 1);
    std::puts("ready");
    std::fflush(stdout);
    emulator.run(devices);
    std::fclose(log);
    emulator.print_summary();
    return 0;
}
