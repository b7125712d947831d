// What tests of objects ask.
#ifndef OBJECTS_HPP
#define OBJECTS_HPP
#include <iostream>
#include <stdexcept>
#include <string>

// Whether something was not so.
static int wrong = 0;

static void is_so(const char *what, bool holds) {
    if (!holds) {
        std::cout << what << ": it is not so\n";
        wrong = 1;
    }
}

template <typename Call> static bool is_refused(Call call) {
    try {
        call();
        return false;
    } catch (const std::invalid_argument &) {
        return true;
    }
}

#endif
