// Stand-ins for the calls of ROS 2 that ros2/watch_node.cpp makes: a node hears the rows of the first example, and prints
// what it publishes. Its topic `grant` has no value before the first two ticks, and `level` is always 7. The parameter
// `program` is the first argument.
#pragma once
#include <cstdint>
#include <cstdio>
#include <functional>
#include <iostream>
#include <memory>
#include <string>
#include <utility>
#include <vector>

#include "std_msgs/msg/bool.hpp"
#include "std_msgs/msg/int32.hpp"
#include "std_msgs/msg/string.hpp"

#define RCLCPP_FATAL(logger, ...) (std::fprintf(stderr, "%s: ", (logger).c_str()), std::fprintf(stderr, __VA_ARGS__), std::fputs("\n", stderr))

namespace rclcpp {

inline std::string program;

struct TimerBase {
    using SharedPtr = std::shared_ptr<TimerBase>;
    std::function<void()> call;
};

struct SubscriptionBase {
    using SharedPtr = std::shared_ptr<SubscriptionBase>;
    std::function<void(std::int64_t)> call;
};

template <class Message>
struct Publisher {
    using SharedPtr = std::shared_ptr<Publisher>;
    void publish(const Message &message) { std::cout << message.data << '\n'; }
};

class Node {
public:
    explicit Node(const std::string &) {}

    template <class Value>
    Value declare_parameter(const std::string &, const Value &) { return program; }

    template <class Message, class Call>
    SubscriptionBase::SharedPtr create_subscription(const std::string &name, int, Call call) {
        auto made = std::make_shared<SubscriptionBase>();
        made->call = [call](std::int64_t number) {
            Message message;
            message.data = static_cast<decltype(message.data)>(number);
            call(message);
        };
        topics.emplace_back(name, made);
        return made;
    }

    template <class Message>
    typename Publisher<Message>::SharedPtr create_publisher(const std::string &, int) {
        return std::make_shared<Publisher<Message>>();
    }

    template <class Duration, class Call>
    TimerBase::SharedPtr create_wall_timer(Duration, Call call) {
        timer = std::make_shared<TimerBase>();
        timer->call = call;
        return timer;
    }

    void run() {
        static const std::int64_t rows[6][2] = {{1, 0}, {0, 1}, {1, 0}, {0, 0}, {0, 0}, {0, 0}};
        timer->call();
        tell("request", 1);
        timer->call();
        for (const auto &row : rows) {
            tell("request", row[0]);
            tell("grant", row[1]);
            tell("level", 7);
            timer->call();
        }
    }

private:
    void tell(const std::string &name, std::int64_t number) {
        for (const auto &topic : topics)
            if (topic.first == name) topic.second->call(number);
    }

    std::vector<std::pair<std::string, SubscriptionBase::SharedPtr>> topics;
    TimerBase::SharedPtr timer;
};

inline void init(int count, char **arguments) { program = count > 1 ? arguments[1] : ""; }
inline void spin(const std::shared_ptr<Node> &node) { node->run(); }
inline void shutdown() {}
inline std::string get_logger(const std::string &name) { return name; }

}  // namespace rclcpp
