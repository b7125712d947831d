// Sessions as objects; exits 0 if each call answers what it must.
#include "cefindrato_session.hpp"
#include "objects.hpp"

using cefindrato::Session;

int main() {
    Session session;
    is_so("given", bool(session.give(1, {1, 2})) && bool(session.give(2, {-1})));
    is_so("taken", session.give(1, {3}).cause == CEFINDRATO_ID_TAKEN);
    is_so("derived", bool(session.derive(3, {2}, {2, 1})));
    is_so("core", bool(session.fails({-2, 3}, {-2}, {3})));
    is_so("not assumed", session.fails({3}, {-2}, {3}).cause == CEFINDRATO_NOT_ASSUMED);
    is_so("its text", std::string(session.fails({3}, {-2}, {3}).text()) == "a literal of the core was not assumed");
    is_so("model", bool(session.satisfies({2}, {2, -1})));
    const cefindrato::SessionAnswer missed = session.satisfies({}, {2});
    is_so("missed", missed.cause == CEFINDRATO_MISSES_CLAUSE && missed.clause == 2);
    is_so("no literal", is_refused([&] { session.give(4, {0}); }));
    Session other = std::move(session);
    is_so("moved from", is_refused([&] { session.give(4, {1}); }));
    other.remove({3, 9});
    is_so("removed", other.fails({-2}, {-2}, {3}).cause == CEFINDRATO_UNKNOWN_ID);
    session = std::move(other);
    is_so("moved back", bool(session.fails({-2}, {-2}, {2, 1})));
    return wrong;
}
