// Memory of ours: the bytes of code, of stack and of the work buffer.
#include "../include/fieldtext.h"
#include "bench.hpp"

#include <ucontext.h>

namespace {

constexpr size_t STACK = 1 << 20;
constexpr uint8_t PAINT = 0xa5;

std::function<void()> on_stack;

void enter_stack() { on_stack(); }

// The stack bytes that a call takes: it runs on a painted stack, and the deepest byte that lost its paint tells.
size_t stack_bytes(const std::function<void()> &call) {
    std::vector<uint8_t> stack(STACK, PAINT);
    ucontext_t here, there;
    if (getcontext(&there) != 0) {
        fail("no context for a stack of its own");
    }
    there.uc_stack.ss_sp = stack.data();
    there.uc_stack.ss_size = stack.size();
    there.uc_link = &here;
    on_stack = call;
    makecontext(&there, enter_stack, 0);
    swapcontext(&here, &there);
    size_t untouched = 0;
    while (untouched < stack.size() && stack[untouched] == PAINT) {
        untouched++;
    }
    if (untouched == 0) {
        fail("the painted stack is too small");
    }
    return stack.size() - untouched;
}

// The same without the way to the call. It is made once before, so that nothing is left to be bound.
size_t own_stack_bytes(const std::function<void()> &call) {
    call();
    return stack_bytes(call) - stack_bytes([] {});
}

// A square read by a call, which says where the point in its middle lies.
size_t field_stack_bytes(const std::function<uint8_t(const std::string &text, uint8_t *table, int32_t *corners)> &call) {
    static const std::string text = R"({"name":"Square","corners":[[0,0],[10,0],[10,10],[0,10]]})";
    std::vector<uint8_t> table(FIELDTEXT_TABLE);
    std::vector<int32_t> corners(FIELDTEXT_CORNERS);
    uint8_t answer = 0;
    const size_t bytes = own_stack_bytes([&] { answer = call(text, table.data(), corners.data()); });
    if (answer != FIELDTEXT_INSIDE) {
        fail("the middle of a square is not inside it");
    }
    return bytes;
}

uint8_t locate_middle(const std::string &text, uint8_t *table, int32_t *corners) {
    size_t nearest;
    return fieldtext_locate(reinterpret_cast<const uint8_t *>(text.data()), text.size(), 5, 5, table, corners, &nearest);
}

uint8_t replot_middle(const std::string &text, uint8_t *table, int32_t *corners) {
    static fieldtext_track_point track[2] = {{1000001, 0, 0, 0}, {5, 5, 0, 0}};
    fieldtext_track(reinterpret_cast<const uint8_t *>(text.data()), text.size(), track, 2, table, corners);
    return static_cast<uint8_t>(track[1].answer);
}

} // namespace

void measure_sizes(Report &report, size_t text_bytes) {
    const Input input = field_input(1, 200'000);
    Reader &ours = *readers().front();
    ours.ready(input);
    std::vector<std::vector<std::string>> rows;
    const auto row = [&](const std::string &what, size_t bytes) {
        rows.push_back({what, grouped(bytes)});
        report.result({"size", what, std::to_string(bytes)});
    };
    if (text_bytes > 0) {
        row("code and constants of the archive", text_bytes);
    }
    std::vector<uint8_t> table, work(96 * 64), out;
    load(input.book, table);
    row("stack of fieldtext_load", own_stack_bytes([&] { load(input.book, table); }));
    row("stack of fieldtext_judge_table: start, feeds and close", own_stack_bytes([&] { judge_by_table(table, input.stream, 64, work, out); }));
    row("stack of fieldtext_judge, which has a table of its own", own_stack_bytes([&] { ours.run(input, 64); }));
    row("stack of fieldtext_locate", field_stack_bytes(locate_middle));
    row("stack of fieldtext_track", field_stack_bytes(replot_middle));
    row("work buffer for each level", 96);
    row("work buffer for 64 levels", 96 * 64);
    report.line("## Memory of ours\n");
    report.table({"what", "bytes"}, rows);
}
