// What IPASIR lets a solver call, over CaDiCaL.
#pragma once
#include <cadical.hpp>
#include <vector>

namespace sessions {

class Callbacks {
  public:
    explicit Callbacks(CaDiCaL::Solver &solver) : solver_(solver) {}
    Callbacks(const Callbacks &) = delete;
    Callbacks &operator=(const Callbacks &) = delete;

    void terminate(void *state, int (*asks)(void *)) {
        terminate_.state = state;
        terminate_.asks = asks;
        if (asks) {
            solver_.connect_terminator(&terminate_);
        } else {
            solver_.disconnect_terminator();
        }
    }

    void learn(void *state, int longest, void (*takes)(void *, int *)) {
        learn_.state = state;
        learn_.longest = longest;
        learn_.takes = takes;
        if (takes) {
            solver_.connect_learner(&learn_);
        } else {
            solver_.disconnect_learner();
        }
    }

  private:
    struct Terminate : CaDiCaL::Terminator {
        void *state = nullptr;
        int (*asks)(void *) = nullptr;
        bool terminate() override { return asks && asks(state); }
    };

    struct Learn : CaDiCaL::Learner {
        void *state = nullptr;
        int longest = 0;
        void (*takes)(void *, int *) = nullptr;
        std::vector<int> clause;
        bool learning(int size) override { return takes && size <= longest; }
        void learn(int literal) override {
            clause.push_back(literal);
            if (!literal) {
                takes(state, clause.data());
                clause.clear();
            }
        }
    };

    CaDiCaL::Solver &solver_;
    Terminate terminate_;
    Learn learn_;
};

} // namespace sessions
