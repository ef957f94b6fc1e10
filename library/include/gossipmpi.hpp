// gossipmpi for C++11: a script's evaluation as a value. A refused script is an exception. gossipmpi.h says what the caller keeps.
#pragma once
#include "gossipmpi.h"
#include <new>
#include <stdexcept>
#include <string>

namespace gossipmpi {

// The script can't be read: what() is `script line N: NAME`.
struct script_error : std::runtime_error {
    using std::runtime_error::runtime_error;
};

// The text of gossipmpi.h, and whether ranks wait.
struct answer {
    std::string text;
    bool waits;
};

// A run's options ask for none, or there are too many processes: what() is what the program says.
struct usage_error : std::runtime_error {
    using std::runtime_error::runtime_error;
};

// What a run prints, what it says beside, and its status, as gossipmpi.h names it.
struct ran {
    std::string text, said;
    int status;
};

namespace detail {
inline const uint8_t *bytes(const std::string &text) { return reinterpret_cast<const uint8_t *>(text.data()); }

// The text of a call that is handed room, and its status.
template <class Call> int filled(Call call, std::string &out)
{
    out.assign(1024, '\0');
    for (;;) {
        size_t needed = 0;
        const uint8_t status = call(reinterpret_cast<uint8_t *>(&out[0]), out.size(), &needed);
        if (status == GOSSIPMPI_MEMORY) throw std::bad_alloc();
        const bool fits = needed <= out.size();
        out.resize(needed);
        if (fits) return status;
    }
}

template <class Call> answer ask(Call call, const std::string &script)
{
    std::string out;
    const int status = filled([&](uint8_t *to, size_t room, size_t *needed) { return call(bytes(script), script.size(), to, room, needed); }, out);
    if (status == GOSSIPMPI_REFUSED) throw script_error(out);
    return {out, status == GOSSIPMPI_WAITING};
}

template <class Call> int run(Call call, const std::string &script, const std::string &options, std::string &out)
{
    return filled([&](uint8_t *to, size_t room, size_t *needed) { return call(bytes(script), script.size(), bytes(options), options.size(), to, room, needed); }, out);
}
}

// What each rank gets.
inline answer eval(const std::string &script) { return detail::ask(gossipmpi_eval, script); }

// Throws script_error where the script can't be read.
inline void check(const std::string &script) { detail::ask(gossipmpi_check, script); }

// Who waits, and what is wrong. Of a script that can't be read the exception has all refused lines.
inline answer explain(const std::string &script) { return detail::ask(gossipmpi_explain, script); }

// A simulated run with these options, as "--seed 7 --loss 20".
inline ran run(const std::string &script, const std::string &options = "")
{
    ran it;
    it.status = detail::run(gossipmpi_run, script, options, it.text);
    detail::run(gossipmpi_run_says, script, options, it.said);
    if (it.status == GOSSIPMPI_REFUSED) throw script_error(it.said);
    if (it.status == GOSSIPMPI_USAGE) throw usage_error(it.said);
    return it;
}

}
