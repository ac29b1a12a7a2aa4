// Books the morning of README.md on a board of its own and prints the board after it: C++17 over the header for C.
#include "bayboard.h"

#include <cstdint>
#include <cstdlib>
#include <iostream>
#include <string>

namespace {

// Ends the program where something isn't as expected.
void expect(bool holds, const std::string &what)
{
    if (!holds) {
        std::cerr << "unexpected: " << what << '\n';
        std::exit(1);
    }
}

// The number that an accepted entry gave: the job's, where one was added.
std::int32_t accepted(bayboard_reply reply)
{
    expect(reply.accepted, bayboard_refusal_text(reply.number));
    return static_cast<std::int32_t>(reply.number);
}

// Minutes after midnight: 360 is 6:00.
void book(bayboard &board)
{
    const auto dairy = accepted(bayboard_addition(&board, 45, 360, 480, BAYBOARD_VALID));         // 6:00 to 8:00
    const auto van = accepted(bayboard_addition(&board, 30, 390, 540, BAYBOARD_VALID));           // 6:30 to 9:00
    const auto beverages = accepted(bayboard_addition(&board, 60, 360, 600, BAYBOARD_UNDECIDED)); // not confirmed, 6:00 to 10:00
    accepted(bayboard_addition(&board, 20, 420, 500, BAYBOARD_VALID));                            // returns, 7:00 to 8:20
    accepted(bayboard_arc(&board, dairy, van));                 // the van takes what the dairy truck brings
    accepted(bayboard_cut(&board, dairy, 390, 480));            // the dairy truck phones: not before 6:30
    accepted(bayboard_mark(&board, beverages, BAYBOARD_VALID)); // the beverages are confirmed,
    accepted(bayboard_cut(&board, beverages, 360, 520));        // and their driver has to leave at 8:40
    const auto refused = bayboard_cut(&board, van, 390, 510);   // the van would like to leave at 8:30
    expect(!refused.accepted && refused.number == BAYBOARD_NO_IMPOSSIBLE, "the van can't leave at 8:30");
}

// Calls `use` with each job of a set, in ascending number.
template <typename Use> void for_each_member(std::uint64_t set, Use use)
{
    for (std::int32_t job = 0; job < BAYBOARD_JOBS; job++)
        if (set >> job & 1)
            use(job);
}

std::string members(std::uint64_t set)
{
    std::string list = set == 0 ? " none" : "";
    for_each_member(set, [&list](std::int32_t job) { list += ' ' + std::to_string(job); });
    return list;
}

void print(const bayboard &board)
{
    const auto jobs = static_cast<std::int32_t>(board.jobs);
    std::cout << jobs << " jobs, " << board.books.tally << " refused as impossible\n";
    for (std::int32_t job = 0; job < jobs; job++) {
        const auto row = bayboard_row(&board, job);
        expect(row.accepted, "a row of each job");
        std::cout << "job " << job << ": mark " << int{row.mark} << ", " << row.earliest << " to " << row.latest
                  << ", after" << members(row.before) << ", before" << members(row.after) << '\n';
    }
    const auto pair = bayboard_pair(&board, 2, 1);
    expect(pair.accepted, "a pair of two jobs");
    std::cout << "jobs 2 and 1: arcs " << int{pair.arcs} << ", gap " << pair.gap << '\n';
    const auto plan = bayboard_plan(&board, 1000);
    expect(plan.ending == BAYBOARD_FOUND, "a plan");
    std::cout << "plan of " << plan.number << " tries:";
    for_each_member(plan.placed, [&plan](std::int32_t job) { std::cout << " job " << job << " at " << plan.starts[job]; });
    std::cout << '\n';
}

} // namespace

int main()
{
    expect(bayboard_matches(), "a library of this header's version");
    bayboard board = bayboard_empty();
    book(board);
    print(board);
}
