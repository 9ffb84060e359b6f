// A node of ROS 2: it keeps the last value of each signal, passes the monitor a row ten times a second, and publishes a text
// for each stretch of time in which a requirement is false. `ros2 run watch watch_node --ros-args -p program:=grant.obs`
#include <chrono>
#include <fstream>
#include <iterator>
#include <memory>
#include <stdexcept>
#include <string>
#include <vector>

#include "r2u2.hpp"
#include "rclcpp/rclcpp.hpp"
#include "std_msgs/msg/bool.hpp"
#include "std_msgs/msg/int32.hpp"
#include "std_msgs/msg/string.hpp"

class Watch : public rclcpp::Node {
public:
    Watch() : Node("watch") {
        r2u2_fault fault{};
        if (monitor.open(read(declare_parameter<std::string>("program", "grant.obs")), &fault) != R2U2_DONE)
            throw std::runtime_error(std::string("no monitor: ") + fault.text);
        row.resize(monitor.width());
        unknown.assign(monitor.width(), false);
        for (const mltl::Signal &signal : monitor.signals()) {
            unknown[signal.column] = true;
            if (signal.kind == R2U2_TRUTH)
                listen<std_msgs::msg::Bool>(signal);
            else
                listen<std_msgs::msg::Int32>(signal);
        }
        verdicts = create_publisher<std_msgs::msg::String>("verdicts", 10);
        timer = create_wall_timer(std::chrono::milliseconds(100), [this] { tick(); });
    }

private:
    static std::vector<std::uint8_t> read(const std::string &name) {
        std::ifstream file(name, std::ios::binary);
        return {std::istreambuf_iterator<char>(file), {}};
    }

    template <class Message>
    void listen(const mltl::Signal &signal) {
        const std::uint32_t column = signal.column;
        inputs.push_back(create_subscription<Message>(signal.name, 10, [this, column](const Message &value) {
            row[column] = value.data;
            unknown[column] = false;
        }));
    }

    // Passes a row once each signal has a value; a topic that falls silent keeps its last one.
    void tick() {
        for (bool is_unknown : unknown)
            if (is_unknown) return;
        r2u2_row_fault why{};
        const std::uint32_t code = monitor.row(row, &why);
        if (code != R2U2_DONE) publish(std::string("row not taken: ") + r2u2_code_text(code));
        mltl::Report report;
        while (monitor.next(report, R2U2_RUNS) == R2U2_DONE)
            if (report.word == R2U2_FALSE || report.word == R2U2_INVALID)
                publish(monitor.name(report.output) + " is false up to row " + std::to_string(report.time));
    }

    void publish(const std::string &line) {
        std_msgs::msg::String text;
        text.data = line;
        verdicts->publish(text);
    }

    mltl::Handle monitor;
    std::vector<std::int64_t> row;
    std::vector<bool> unknown; // the columns of signals that have no value yet
    std::vector<rclcpp::SubscriptionBase::SharedPtr> inputs;
    rclcpp::Publisher<std_msgs::msg::String>::SharedPtr verdicts;
    rclcpp::TimerBase::SharedPtr timer;
};

int main(int count, char **arguments) {
    rclcpp::init(count, arguments);
    int status = 0;
    try {
        rclcpp::spin(std::make_shared<Watch>());
    } catch (const std::exception &error) {
        RCLCPP_FATAL(rclcpp::get_logger("watch"), "%s", error.what());
        status = 1;
    }
    rclcpp::shutdown();
    return status;
}
