// Calls each function of gossipmpi.hpp.
#include "gossipmpi.hpp"
#include <iostream>

int main()
{
    const auto got = gossipmpi::eval("ranks 2\n0: allreduce world max u8 200\n1: allreduce world max u8 99\n");
    if (got.text != "0: 200\n1: 200\n" || got.waits) return 1;
    try {
        gossipmpi::check("ranks 65\n");
        return 2;
    } catch (const gossipmpi::script_error &error) {
        if (std::string(error.what()) != "script line 1: RanksOutOfRange") return 3;
    }
    const auto why = gossipmpi::explain("ranks 2\n0: barrier world\n");
    if (!why.waits || why.text.find("waits for rank 1") == std::string::npos) return 4;
    const auto ran = gossipmpi::run("ranks 2\n0: allreduce world max u8 200\n1: allreduce world max u8 99\n", "--seed 7 --loss 20 --table");
    if (ran.text != "0: 200\n1: 200\n" || ran.status != GOSSIPMPI_FINISHED || ran.said.empty()) return 6;
    try {
        gossipmpi::run("ranks 2\n", "--loss 101");
        return 7;
    } catch (const gossipmpi::usage_error &) {
    }
    std::string many = "ranks 64\n*: allgather world i64 1 2 3 4 5 6 7 8\n";
    return gossipmpi::eval(many).text.size() > 1024 ? 0 : 5;
}
