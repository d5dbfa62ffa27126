/* The same kind of program over another maker's DDS, eProsima Fast DDS 2.9: it shows that what the bridge sends is DDS, and not
 * Cyclone's alone. The type is written out by hand, as the standard's CDR has a final struct with a sequence of octets. It keeps to the
 * loopback, without multicast. The driver's messages have letters and digits alone.
 *
 *   fast sub DOMAIN TOPIC COUNT SECONDS    as `peer sub`
 *   fast pub DOMAIN TOPIC COUNT SIZE       as `peer pub`, but stays for half a minute instead of waiting for acknowledgement
 */
#include <fastdds/dds/domain/DomainParticipant.hpp>
#include <fastdds/dds/domain/DomainParticipantFactory.hpp>
#include <fastdds/dds/publisher/DataWriter.hpp>
#include <fastdds/dds/publisher/Publisher.hpp>
#include <fastdds/dds/subscriber/DataReader.hpp>
#include <fastdds/dds/subscriber/SampleInfo.hpp>
#include <fastdds/dds/subscriber/Subscriber.hpp>
#include <fastdds/dds/topic/Topic.hpp>
#include <fastdds/dds/topic/TopicDataType.hpp>
#include <fastdds/dds/topic/TypeSupport.hpp>
#include <fastdds/rtps/transport/UDPv4TransportDescriptor.h>
#include <fastrtps/utils/IPLocator.h>

#include <algorithm>
#include <chrono>
#include <cstdio>
#include <cstdlib>
#include <cstring>
#include <string>
#include <thread>

using namespace eprosima::fastdds::dds;
using namespace eprosima::fastrtps::rtps;

static const char *const TYPE = "driver::Message";
static const std::chrono::milliseconds MOMENT(1);

/* A message is a string of bytes here; in CDR, four bytes that say how it is written, its length, and the bytes. */
class Message : public TopicDataType {
public:
    Message() {
        setName(TYPE);
        m_typeSize = 8 + 65536;
        m_isGetKeyDefined = false;
    }
    bool serialize(void *data, SerializedPayload_t *payload) override {
        const std::string &bytes = *static_cast<std::string *>(data);
        const uint32_t length = static_cast<uint32_t>(bytes.size());
        const uint8_t head[8] = {0, 1, 0, 0, uint8_t(length), uint8_t(length >> 8), uint8_t(length >> 16), uint8_t(length >> 24)};
        std::memcpy(payload->data, head, 8);
        std::memcpy(payload->data + 8, bytes.data(), length);
        payload->encapsulation = CDR_LE;
        payload->length = 8 + length;
        return true;
    }
    bool deserialize(SerializedPayload_t *payload, void *data) override {
        const uint8_t *head = payload->data;
        const uint32_t length = head[4] | head[5] << 8 | head[6] << 16 | uint32_t(head[7]) << 24;
        if (head[1] != 1 || payload->length < 8 + length) return false;
        static_cast<std::string *>(data)->assign(reinterpret_cast<const char *>(head) + 8, length);
        return true;
    }
    std::function<uint32_t()> getSerializedSizeProvider(void *data) override {
        return [data] { return static_cast<uint32_t>(8 + static_cast<std::string *>(data)->size()); };
    }
    void *createData() override { return new std::string; }
    void deleteData(void *data) override { delete static_cast<std::string *>(data); }
    bool getKey(void *, InstanceHandle_t *, bool) override { return false; }
};

/* Port 0: the one that the rules of DDSI give. */
static Locator_t loopback(uint32_t port) {
    Locator_t locator;
    locator.kind = LOCATOR_KIND_UDPv4;
    IPLocator::setIPv4(locator, 127, 0, 0, 1);
    locator.port = port;
    return locator;
}

static DomainParticipant *participant_of(uint32_t domain) {
    DomainParticipantQos quality;
    auto udp = std::make_shared<eprosima::fastdds::rtps::UDPv4TransportDescriptor>();
    udp->interfaceWhiteList.push_back("127.0.0.1");
    quality.transport().user_transports.push_back(udp);
    quality.transport().use_builtin_transports = false;
    auto &wire = quality.wire_protocol();
    for (uint32_t index = 0; index < 8; index++)
        wire.builtin.initialPeersList.push_back(loopback(7400 + 250 * domain + 10 + 2 * index));
    wire.builtin.metatrafficUnicastLocatorList.push_back(loopback(0));
    wire.default_unicast_locator_list.push_back(loopback(0));
    return DomainParticipantFactory::get_instance()->create_participant(domain, quality);
}

static int sub(DomainParticipant *participant, Topic *topic, int count, int seconds) {
    DataReaderQos quality;
    quality.reliability().kind = RELIABLE_RELIABILITY_QOS;
    quality.history().kind = KEEP_ALL_HISTORY_QOS;
    DataReader *reader = participant->create_subscriber(SUBSCRIBER_QOS_DEFAULT)->create_datareader(topic, quality);
    const auto until = std::chrono::steady_clock::now() + std::chrono::seconds(seconds);
    int seen = 0;
    bool matched = false;
    std::puts("ready");
    while (seen < count && std::chrono::steady_clock::now() < until) {
        SubscriptionMatchedStatus status;
        reader->get_subscription_matched_status(status);
        if (!matched && status.current_count > 0) matched = std::puts("matched") >= 0;
        std::string message;
        SampleInfo info;
        if (reader->take_next_sample(&message, &info) != ReturnCode_t::RETCODE_OK) {
            std::this_thread::sleep_for(MOMENT);
        } else if (info.valid_data) {
            std::printf("%s (%zu)\n", message.substr(0, 64).c_str(), message.size());
            seen++;
        }
    }
    std::printf("seen %d\n", seen);
    return seen == count ? 0 : 1;
}

/* The driver's message of that number: 8 digits, then letters that follow from the number. */
static std::string message_of(int number, int size) {
    std::string digits = std::to_string(number);
    std::string message(8 - std::min<size_t>(8, digits.size()), '0');
    message += digits;
    for (int at = 8; at < size; at++) message += static_cast<char>('a' + (number + at) % 26);
    return message;
}

static int pub(DomainParticipant *participant, Topic *topic, int count, int size) {
    DataWriterQos quality;
    quality.reliability().kind = RELIABLE_RELIABILITY_QOS;
    quality.history().kind = KEEP_ALL_HISTORY_QOS;
    /* What is longer than a datagram goes in parts, in this mode alone. */
    quality.publish_mode().kind = ASYNCHRONOUS_PUBLISH_MODE;
    DataWriter *writer = participant->create_publisher(PUBLISHER_QOS_DEFAULT)->create_datawriter(topic, quality);
    PublicationMatchedStatus status;
    do {
        std::this_thread::sleep_for(MOMENT);
        writer->get_publication_matched_status(status);
    } while (status.current_count == 0);
    /* One at a time: of many at once these two makers' DDS lose some between them, without an agent too. */
    for (int number = 1; number <= count; number++) {
        std::this_thread::sleep_for(100 * MOMENT);
        std::string message = message_of(number, size);
        if (!writer->write(&message)) return 2;
    }
    std::puts("written");
    std::this_thread::sleep_for(std::chrono::seconds(30));
    return 0;
}

int main(int count, char **words) {
    std::setvbuf(stdout, nullptr, _IOLBF, 0);
    if (count != 6) return std::fputs("fast: see the head of fast.cpp for what it takes\n", stderr), 2;
    DomainParticipant *participant = participant_of(static_cast<uint32_t>(std::atoi(words[2])));
    if (participant == nullptr) return std::fputs("fast: no participant\n", stderr), 2;
    TypeSupport(new Message).register_type(participant);
    Topic *topic = participant->create_topic(words[3], TYPE, TOPIC_QOS_DEFAULT);
    const int first = std::atoi(words[4]), second = std::atoi(words[5]);
    if (std::strcmp(words[1], "sub") == 0) return sub(participant, topic, first, second);
    return pub(participant, topic, first, second);
}
