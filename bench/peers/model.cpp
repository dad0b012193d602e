// A model of `memplan plan`: the same algorithm in plain C++, without any proof. With `certify` it
// prints the same bytes; with `plan` it leaves the claims out, and all that only they need.
//
// usage: model read tree|workflow FILE
//        model plan tree|workflow FILE
//        model certify tree|workflow FILE

#include <cstring>

#include "claims.hpp"

namespace {

bool is_tree(const char *kind) {
    if (!std::strcmp(kind, "tree")) return true;
    if (!std::strcmp(kind, "workflow")) return false;
    fail("another kind of file is wanted");
}

void read(const char *kind, const char *name) {
    const std::size_t count =
        is_tree(kind) ? read_tree(name).size() - 1 : read_workflow(name).size();
    std::printf("read %zu\n", count);
}

Term read_term(const char *kind, const char *name) {
    return is_tree(kind) ? term_of(read_tree(name)) : term_of(read_workflow(name));
}

void print_claim(Page &page, const Claim &claim) {
    page.number(claim.position);
    page.word(claim.direction == Direction::Forwards ? " F " : " R ");
    // a bound is at least -1
    if (claim.bound < 0) page.word("-1");
    else page.number(static_cast<std::uint64_t>(claim.bound));
    page.line(" ", claim.rest);
}

void print_plan(const Traversal &found, const std::vector<Claim> &claims) {
    Page page;
    page.word("plan 1\n");
    page.line("order ", found.order.size());
    for (const std::uint32_t task : found.order) page.line("", task);
    page.line("peak ", found.peak);
    page.line("claims ", claims.size());
    for (const Claim &claim : claims) print_claim(page, claim);
    page.word("end\n");
    page.write();
}

void plan(const char *kind, const char *name, bool has_claims) {
    const Term term = read_term(kind, name);
    Notes notes;
    const Planned planned = least_peak(term, has_claims ? &notes : nullptr);
    std::vector<Claim> claims;
    if (has_claims) claims = claims_of(term, notes, planned.whole);
    print_plan(planned.traversal, claims);
}

}

int main(int count, char **words) {
    const auto is = [&](const char *word) { return count == 4 && !std::strcmp(words[1], word); };
    if (is("read")) read(words[2], words[3]);
    else if (is("plan")) plan(words[2], words[3], false);
    else if (is("certify")) plan(words[2], words[3], true);
    else fail("usage: model read|plan|certify tree|workflow FILE");
}
