// Plans a manoeuvre for own ship: plan SCENARIO LOG
//
// Writes the report to standard output and the line of a fault to standard error, and exits with the status, as the program does.
//   c++ -std=c++17 plan.cpp $(pkg-config --cflags --libs colregs) -o plan
#include "colregs.hpp"

#include <exception>
#include <fstream>
#include <iostream>
#include <iterator>
#include <stdexcept>
#include <string>

static std::string read_file(const char *name) {
    std::ifstream file(name, std::ios::binary);
    std::string read{std::istreambuf_iterator<char>(file), {}};
    if (!file) throw std::runtime_error(std::string("cannot read ") + name);
    return read;
}

int main(int argc, char **argv) try {
    if (argc != 3) throw std::runtime_error("usage: plan SCENARIO LOG");
    if (colregs_interface() != COLREGS_INTERFACE) throw std::runtime_error("the library has another interface than the header; build again");
    const colregs::Report report = colregs::report(colregs::Mode::plan, read_file(argv[1]), read_file(argv[2]));
    std::cerr << report.fault;
    std::cout << report.text << std::flush;
    if (!std::cout) throw std::runtime_error("cannot write the report");
    return report.status;
} catch (const std::exception &fault) {
    std::cerr << "plan: " << fault.what() << '\n';
    return 20;
}
