// The proved checkers of Cefindrato, for C++17: functions over texts in memory.
//
// Nothing is kept between calls; any number of threads may call at once. How to build: bindings/README.md.
#ifndef CEFINDRATO_HPP
#define CEFINDRATO_HPP
#include "cefindrato.h"
#include <memory>
#include <stdexcept>
#include <string>
#include <string_view>
#include <vector>

namespace cefindrato {

// What a check answers.
enum class Answer {
    verified,     // no assignment satisfies the clauses of the formula's text; of a model: it satisfies them
    not_verified, // all of the proof is accepted, and it shows nothing; of a model: a clause is not satisfied
    fault,        // a text is rejected
    out_of_memory // there was no memory; nothing is said of the formula or of the proof
};

// The format of a proof: by default it is detected from its first bytes.
enum class Format {
    detected = CEFINDRATO_DETECTED,
    drat = CEFINDRATO_DRAT,
    frat = CEFINDRATO_FRAT,
    lpr = CEFINDRATO_LPR,
    told [[deprecated("detected")]] = CEFINDRATO_DETECTED
};

namespace detail {

inline Answer answer_of(int status) {
    switch (status) {
    case CEFINDRATO_VERIFIED:
        return Answer::verified;
    case CEFINDRATO_NOT_VERIFIED:
        return Answer::not_verified;
    case CEFINDRATO_OUT_OF_MEMORY:
        return Answer::out_of_memory;
    default:
        return Answer::fault;
    }
}

// A buffer for a text. Its bytes are not touched before there is a text.
struct Buffer {
    explicit Buffer(size_t size) : bytes(new char[size]), size(size) {}
    std::string text(const cefindrato_text &placed) const { return {bytes.get(), placed.len}; }
    std::unique_ptr<char[]> bytes;
    size_t size;
};

} // namespace detail

// A step of a DRAT proof.
struct DratStep {
    std::vector<int32_t> clause;
    bool is_deletion = false;
};

// The steps as the text that the checks take. Throws std::invalid_argument if a literal is 0; others that are none the checks reject.
inline std::string text_of(const std::vector<DratStep> &steps) {
    std::string text;
    for (const DratStep &step : steps) {
        text += step.is_deletion ? "d " : "";
        for (const int32_t literal : step.clause)
            text += literal ? std::to_string(literal) + ' ' : throw std::invalid_argument("0 is no literal");
        text += "0\n";
    }
    return text;
}

// The clauses as the text that the checks take. Throws as for steps.
inline std::string text_of(const std::vector<std::vector<int32_t>> &clauses) {
    std::string text;
    for (const std::vector<int32_t> &clause : clauses)
        text += text_of(std::vector<DratStep>{{clause}});
    return text;
}

// Checks an LRAT proof, text or binary, against a DIMACS text. Where `why` is given it gets the text of a fault, and nothing otherwise.
inline Answer check(std::string_view cnf, std::string_view proof, std::string *why = nullptr) {
    char text[512] = {};
    const cefindrato_answer answer =
        cefindrato_check(cnf.data(), cnf.size(), proof.data(), proof.size(), text, sizeof text);
    if (why)
        why->assign(text, answer.text.len);
    return detail::answer_of(answer.status);
}

// What is wanted beside the verdict on a DRAT or FRAT proof; each is empty where it is not verified.
struct DratOutputs {
    std::string *lrat = nullptr; // gets the proof as LRAT text
    std::string *core = nullptr; // gets the clauses of the formula that it uses, as DIMACS text
};

// Checks a DRAT, DPR or FRAT proof, text or binary, or LPR text, against a DIMACS text. Where LRAT text is wanted that is longer than eight times
// the proof and a megabyte, the proof is checked twice.
inline Answer check_drat(std::string_view cnf, std::string_view proof, std::string *why = nullptr, DratOutputs outputs = {},
                         Format format = Format::detected) {
    char text[512] = {};
    detail::Buffer core(outputs.core ? cnf.size() + 64 : 0);
    for (size_t size = outputs.lrat ? 8 * proof.size() + (1 << 20) : 0;;) {
        const detail::Buffer lrat(size);
        const cefindrato_drat_answer answer = cefindrato_check_drat(
            cnf.data(), cnf.size(), proof.data(), proof.size(), static_cast<int>(format), outputs.lrat ? lrat.bytes.get() : nullptr,
            size, outputs.core ? core.bytes.get() : nullptr, core.size, text, sizeof text);
        if (answer.lrat.len < answer.lrat.whole) {
            size = answer.lrat.whole;
            continue;
        }
        if (outputs.lrat)
            *outputs.lrat = lrat.text(answer.lrat);
        if (outputs.core)
            *outputs.core = core.text(answer.core);
        if (why)
            why->assign(text, answer.text.len);
        return detail::answer_of(answer.status);
    }
}

// A clause that an answer does not satisfy.
struct Unmet {
    uint64_t clause = 0; // its number, counted from 1; 0: there is none
    uint64_t line = 0;   // the line on which it ends
};

// Checks a solver's answer that a formula is satisfiable against a DIMACS text. Where `unmet` is given it gets the first clause
// that is not satisfied.
inline Answer check_model(std::string_view cnf, std::string_view answer, std::string *why = nullptr, Unmet *unmet = nullptr) {
    char text[512] = {};
    const cefindrato_model_answer result =
        cefindrato_check_model(cnf.data(), cnf.size(), answer.data(), answer.size(), text, sizeof text);
    if (why)
        why->assign(text, result.text.len);
    if (unmet)
        *unmet = {result.clause, result.line};
    return detail::answer_of(result.status);
}

} // namespace cefindrato
#endif
