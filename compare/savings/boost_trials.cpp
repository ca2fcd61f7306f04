// The settings that Boost's toms748_solve tries on each curve, a line each: method, curve, tolerance, settings in order.
// Usage: boost_trials VALUES > TRIED, with the file that `savings --values VALUES` writes. The dryer takes whole hundredths of a degree, so
// a setting that the method asks for is rounded to one.
#include <boost/math/tools/toms748_solve.hpp>
#include <cmath>
#include <cstdint>
#include <fstream>
#include <iostream>
#include <sstream>
#include <string>
#include <vector>

static long setting_of(double x) { return static_cast<long>(std::floor(x + 0.5)); }

// Prints the settings that the method tries, told to end when its two ends are no further apart than twice the tolerance.
static void solve(const std::string &name, const std::vector<int> &values, long tolerance) {
    std::cout << "Boost toms748_solve," << name << ',' << tolerance;
    auto dried = [&](double x) {
        std::cout << ',' << setting_of(x);
        return static_cast<double>(values[static_cast<std::size_t>(setting_of(x))]);
    };
    auto close = [&](double low, double high) { return setting_of(high) - setting_of(low) <= 2 * tolerance; };
    std::uintmax_t most = 1000;
    boost::math::tools::toms748_solve(dried, 0.0, static_cast<double>(values.size() - 1), close, most);
    std::cout << '\n';
}

int main(int count, char **words) {
    if (count != 2) {
        std::cerr << "boost_trials: name the file of values\n";
        return 2;
    }
    std::ifstream lines(words[1]);
    std::string line;
    while (std::getline(lines, line)) {
        std::istringstream fields(line);
        std::string name, text;
        std::getline(fields, name, ',');
        std::vector<int> values;
        while (std::getline(fields, text, ',')) {
            values.push_back(std::stoi(text));
        }
        for (long tolerance : {1, 25, 500}) {
            solve(name, values, tolerance);
        }
    }
}
