# What a new user types after the first lines of README.md: a service of his own, a look at it while it runs, and what is there after a kill
# and the next start. tests/by_hand/packages runs it.
mkdir ~/shop && cd ~/shop
cat > shop.cpp <<'END'
#include <povundiri_recording.hpp>
#include <chrono>
#include <random>
#include <thread>
using namespace std::chrono_literals;
int main() {
    povundiri::Recording recording("metrics");
    const auto order = recording.scale<std::chrono::microseconds>("order_us", 1us, 10s, 5);
    std::mt19937 random;
    std::exponential_distribution<> mean(1.0 / 800);
    for (;;) {
        povundiri::Timer timer(order);
        std::this_thread::sleep_for(std::chrono::microseconds(static_cast<int>(mean(random))));
    }
}
END
c++ -std=c++17 shop.cpp $(pkg-config --cflags --libs povundiri-static) -o shop
./shop &
sleep 2
persist_report show metrics --live --every 2 --count 2
persist_report report metrics
kill -9 $!
wait $! || true
persist_report report metrics
./shop &
sleep 2
persist_report report metrics
persist_report export metrics --to metrics.prom
persist_report fold metrics
kill $!
wait $! || true
persist_report show metrics
