// Bulk TCP flows of ns-3 over the link that `ccp` models: a chance of a trace serves one packet of any size, a drop-tail
// queue holds packets, and a fixed delay is around it.
//
//     ns3 --trace=FILE --queue=PACKETS --flows=SENDER:MICROSECONDS[,SENDER:MICROSECONDS].. --segments=N|--seconds=S
//         --log=FILE [--windows=FILE] [--hystart=0|1] [--minrto=SECONDS] [--losses=FILE]
//
// A flow is reno or cubic, and its delay. A run ends with the segments of one flow, or after some seconds. The trace begins
// when the first data packet is sent; packets without data use no chance. The log gets a line for each data packet: its
// time in microseconds, its sequence number, its wait in microseconds, or -1 where it was lost, and of several flows the
// number of its flow. The file of windows gets a line for each change of the first flow's: its time in microseconds, and
// the window in bytes. --losses names a file of the numbers of data packets, from 0, that are lost however short the queue
// is. It prints how often retransmission timers fired.
#include "ns3/applications-module.h"
#include "ns3/core-module.h"
#include "ns3/internet-module.h"
#include "ns3/network-module.h"
#include <cstdio>
#include <deque>
#include <fstream>
#include <sstream>
#include <unordered_set>
#include <vector>

using namespace ns3;

namespace
{

const uint32_t SEGMENT_BYTES = 1448;
const uint32_t FIRST_SEGMENTS = 3;
const uint16_t PORT = 9;

std::vector<int64_t>
NumbersIn(const std::string& path)
{
    std::ifstream file(path);
    NS_ABORT_MSG_UNLESS(file, "ns3: " << path << " can't be read");
    std::vector<int64_t> found;
    for (int64_t number = 0; file >> number;)
    {
        found.push_back(number);
    }
    return found;
}

std::FILE*
Opened(const std::string& path)
{
    std::FILE* file = std::fopen(path.c_str(), "w");
    NS_ABORT_MSG_UNLESS(file, "ns3: " << path << " can't be written");
    return file;
}

// The chances of a trace, and the packets that wait for them.
class Link
{
  public:
    std::vector<int64_t> times;
    uint32_t queue = 100;

    // The chance of a packet that comes now, or -1 where the queue is full. Both in nanoseconds of the trace.
    int64_t Enter(int64_t now)
    {
        while (!m_taken.empty() && m_taken.front() <= now)
        {
            m_taken.pop_front();
        }
        if (m_taken.size() >= queue)
        {
            return -1;
        }
        while (Chance(m_next) < now)
        {
            ++m_next;
        }
        m_taken.push_back(Chance(m_next++));
        return m_taken.back();
    }

  private:
    int64_t Chance(uint64_t number) const
    {
        return 1000000 * (times.back() * int64_t(number / times.size()) + times[number % times.size()]);
    }

    uint64_t m_next = 0;
    std::deque<int64_t> m_taken; // chances after now
};

struct Flow
{
    std::string sender;
    int64_t half; // of the delay, in nanoseconds
};

struct Run
{
    Link link;
    std::vector<Flow> flows;
    uint64_t segments = 0;
    double seconds = 0;
    std::unordered_set<int64_t> losses;
    std::unordered_set<uint32_t> seen;
    std::FILE* log = nullptr;
    std::FILE* windows = nullptr;
    int64_t begin = -1, sent = 0;
    uint64_t timeouts = 0;

    int64_t Now() const
    {
        return Simulator::Now().GetNanoSeconds() - std::max<int64_t>(0, begin);
    }

    // How long after now a data packet of a flow is at the other end, or -1 where it is lost.
    int64_t Carry(uint32_t flow, uint32_t sequence)
    {
        if (begin < 0)
        {
            begin = Simulator::Now().GetNanoSeconds();
            if (seconds > 0)
            {
                Simulator::Stop(Seconds(seconds));
            }
        }
        const int64_t now = Now();
        const int64_t chance = losses.count(sent++) ? -1 : link.Enter(now);
        const long long wait = chance < 0 ? -1 : (chance - now) / 1000;
        std::fprintf(log, "%lld %u %lld", static_cast<long long>(now / 1000), sequence, wait);
        std::fprintf(log, flows.size() > 1 ? " %u\n" : "\n", flow);
        if (chance < 0)
        {
            return -1;
        }
        const int64_t half = flows[flow].half;
        if (segments > 0 && seen.insert(sequence).second && seen.size() == segments)
        {
            Simulator::Stop(NanoSeconds(chance + 2 * half - now));
        }
        return chance - now + half;
    }
};

Run g_run;

// An end of the link. The one that is forward sends through the queue.
class TraceDevice : public SimpleNetDevice
{
  public:
    static TypeId GetTypeId()
    {
        static TypeId id = TypeId("TraceDevice").SetParent<SimpleNetDevice>().AddConstructor<TraceDevice>();
        return id;
    }

    bool forward = false;
    Ptr<TraceDevice> peer;

    bool Send(Ptr<Packet> packet, const Address&, uint16_t protocol) override
    {
        Ptr<Packet> copy = packet->Copy();
        Ipv4Header ip;
        TcpHeader tcp;
        copy->RemoveHeader(ip);
        copy->RemoveHeader(tcp);
        const uint32_t flow = (forward ? tcp.GetDestinationPort() : tcp.GetSourcePort()) - PORT;
        int64_t after = g_run.flows[flow].half;
        if (forward && copy->GetSize() > 0)
        {
            after = g_run.Carry(flow, tcp.GetSequenceNumber().GetValue());
        }
        if (after >= 0)
        {
            Simulator::ScheduleWithContext(peer->GetNode()->GetId(), NanoSeconds(after), &TraceDevice::Arrive, peer, packet->Copy(), protocol,
                                           Mac48Address::ConvertFrom(GetAddress()));
        }
        return true;
    }

    void Arrive(Ptr<Packet> packet, uint16_t protocol, Mac48Address from)
    {
        Receive(packet, protocol, Mac48Address::ConvertFrom(GetAddress()), from);
    }
};

void
OnWindow(uint32_t, uint32_t bytes)
{
    std::fprintf(g_run.windows, "%lld %u\n", static_cast<long long>(g_run.Now() / 1000), bytes);
}

void
OnState(TcpSocketState::TcpCongState_t, TcpSocketState::TcpCongState_t to)
{
    g_run.timeouts += to == TcpSocketState::CA_LOSS;
}

void
Fill(Ptr<Socket> socket, uint32_t)
{
    while (socket->GetTxAvailable() >= SEGMENT_BYTES && socket->Send(Create<Packet>(SEGMENT_BYTES)) >= 0)
    {
    }
}

void
OnConnection(Ptr<Socket> socket)
{
    Fill(socket, 0);
}

// The flows of a list SENDER:MICROSECONDS,..
std::vector<Flow>
FlowsIn(const std::string& list)
{
    std::vector<Flow> found;
    std::stringstream words(list);
    for (std::string word; std::getline(words, word, ',');)
    {
        const size_t colon = word.find(':');
        NS_ABORT_MSG_IF(colon == std::string::npos, "ns3: --flows: SENDER:MICROSECONDS is expected");
        found.push_back({word.substr(0, colon), 500 * std::stoll(word.substr(colon + 1))});
        NS_ABORT_MSG_UNLESS(found.back().sender == "reno" || found.back().sender == "cubic", "ns3: a sender is reno or cubic");
    }
    NS_ABORT_MSG_IF(found.empty(), "ns3: --flows has no flow");
    return found;
}

// Starts a flow so that all send their first data at one time: a handshake takes a delay.
void
StartFlow(const NodeContainer& nodes, Ipv4Address target, uint32_t flow, int64_t longest)
{
    const Flow& one = g_run.flows[flow];
    const TypeId type = TypeId::LookupByName(one.sender == "reno" ? "ns3::TcpLinuxReno" : "ns3::TcpCubic");
    for (int at = 0; at < 2; ++at)
    {
        nodes.Get(at)->GetObject<TcpL4Protocol>()->SetAttribute("SocketType", TypeIdValue(type));
    }
    PacketSinkHelper("ns3::TcpSocketFactory", InetSocketAddress(Ipv4Address::GetAny(), PORT + flow)).Install(nodes.Get(1));
    Ptr<Socket> socket = Socket::CreateSocket(nodes.Get(0), TcpSocketFactory::GetTypeId());
    socket->Bind();
    socket->SetConnectCallback(MakeCallback(&OnConnection), MakeNullCallback<void, Ptr<Socket>>());
    socket->SetSendCallback(MakeCallback(&Fill));
    if (flow == 0 && g_run.windows)
    {
        socket->TraceConnectWithoutContext("CongestionWindow", MakeCallback(&OnWindow));
    }
    socket->TraceConnectWithoutContext("CongState", MakeCallback(&OnState));
    Simulator::Schedule(NanoSeconds(2 * (longest - one.half)), [socket, target, flow]() {
        socket->Connect(InetSocketAddress(target, PORT + flow));
    });
}

void
SetDefaults(bool hystart, double least_timeout)
{
    Config::SetDefault("ns3::TcpSocket::SegmentSize", UintegerValue(SEGMENT_BYTES));
    Config::SetDefault("ns3::TcpSocket::InitialCwnd", UintegerValue(FIRST_SEGMENTS));
    Config::SetDefault("ns3::TcpSocket::DelAckCount", UintegerValue(1));
    Config::SetDefault("ns3::TcpSocket::SndBufSize", UintegerValue(16 << 20));
    Config::SetDefault("ns3::TcpSocket::RcvBufSize", UintegerValue(16 << 20));
    Config::SetDefault("ns3::TcpSocketBase::Sack", BooleanValue(true));
    Config::SetDefault("ns3::TcpSocketBase::MinRto", TimeValue(Seconds(least_timeout)));
    Config::SetDefault("ns3::TcpCubic::HyStart", BooleanValue(hystart));
    Config::SetDefault("ns3::TcpL4Protocol::RecoveryType", TypeIdValue(TypeId::LookupByName("ns3::TcpPrrRecovery")));
}

NetDeviceContainer
MakeLink(const NodeContainer& nodes)
{
    NetDeviceContainer devices;
    Ptr<SimpleChannel> channel = CreateObject<SimpleChannel>();
    Ptr<TraceDevice> ends[2];
    for (int at = 0; at < 2; ++at)
    {
        ends[at] = CreateObject<TraceDevice>();
        ends[at]->SetAttribute("PointToPointMode", BooleanValue(true));
        ends[at]->SetAddress(Mac48Address::Allocate());
        ends[at]->SetChannel(channel);
        ends[at]->SetMtu(SEGMENT_BYTES + 52);
        ends[at]->forward = at == 0;
        nodes.Get(at)->AddDevice(ends[at]);
        devices.Add(ends[at]);
    }
    ends[0]->peer = ends[1];
    ends[1]->peer = ends[0];
    return devices;
}

} // namespace

int
main(int argc, char** argv)
{
    std::string trace, flows = "reno:20000", log, windows, losses;
    bool hystart = true;
    double least_timeout = 1;
    CommandLine words;
    words.AddValue("trace", "file of times in milliseconds", trace);
    words.AddValue("queue", "packets that may wait", g_run.link.queue);
    words.AddValue("flows", "reno or cubic, and the round-trip time without waiting in microseconds", flows);
    words.AddValue("segments", "different segments that end the run of one flow", g_run.segments);
    words.AddValue("seconds", "after which a run ends", g_run.seconds);
    words.AddValue("log", "file that gets a line a data packet", log);
    words.AddValue("windows", "file that gets a line a change of the first flow's window", windows);
    words.AddValue("hystart", "whether CUBIC has HyStart", hystart);
    words.AddValue("minrto", "least retransmission timeout in seconds", least_timeout);
    words.AddValue("losses", "file of numbers of packets that are lost", losses);
    words.Parse(argc, argv);
    g_run.flows = FlowsIn(flows);
    g_run.link.times = NumbersIn(trace);
    g_run.log = Opened(log);
    g_run.windows = windows.empty() ? nullptr : Opened(windows);
    if (!losses.empty())
    {
        const std::vector<int64_t> listed = NumbersIn(losses);
        g_run.losses.insert(listed.begin(), listed.end());
    }
    SetDefaults(hystart, least_timeout);

    NodeContainer nodes;
    nodes.Create(2);
    InternetStackHelper().Install(nodes);
    Ipv4AddressHelper addresses("10.1.0.0", "255.255.255.0");
    const Ipv4Address target = addresses.Assign(MakeLink(nodes)).GetAddress(1);
    int64_t longest = 0;
    for (const Flow& one : g_run.flows)
    {
        longest = std::max(longest, one.half);
    }
    for (uint32_t flow = 0; flow < g_run.flows.size(); ++flow)
    {
        StartFlow(nodes, target, flow, longest);
    }
    Simulator::Run();
    Simulator::Destroy();
    std::fclose(g_run.log);
    if (g_run.windows)
    {
        std::fclose(g_run.windows);
    }
    std::printf("timeouts=%llu\n", static_cast<unsigned long long>(g_run.timeouts));
    return g_run.seen.size() >= g_run.segments ? 0 : 1;
}
