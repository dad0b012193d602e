// Reads memplan's files as a C++ program that trusts them would: one buffer, one pass, few tests.
#pragma once

#include <cstdint>
#include <cstdio>
#include <cstdlib>
#include <string>
#include <string_view>
#include <vector>

[[noreturn]] inline void fail(const char *why) {
    std::fprintf(stderr, "peer: %s\n", why);
    std::exit(1);
}

// The text of a file, with a place in it.
class Text {
public:
    explicit Text(const char *name) {
        std::FILE *file = std::fopen(name, "rb");
        if (!file || std::fseek(file, 0, SEEK_END) != 0) fail("a file cannot be read");
        bytes.resize(static_cast<std::size_t>(std::ftell(file)) + 1);
        std::rewind(file);
        if (std::fread(bytes.data(), 1, bytes.size() - 1, file) != bytes.size() - 1) {
            fail("a file cannot be read");
        }
        std::fclose(file);
        bytes.back() = 0;
        at = bytes.data();
    }

    std::size_t size() const { return bytes.size() - 1; }

    // The next token, past blanks, line feeds and comments; empty at the end.
    std::string_view token() {
        skip();
        const char *first = at;
        while (*at > ' ') at++;
        return {first, static_cast<std::size_t>(at - first)};
    }

    std::uint64_t number() {
        skip();
        if (*at < '0' || *at > '9') fail("no number where one is wanted");
        std::uint64_t value = 0;
        while (*at >= '0' && *at <= '9')
            value = 10 * value + static_cast<std::uint64_t>(*at++ - '0');
        return value;
    }

    void expect(std::string_view word) {
        if (token() != word) fail("another word is wanted");
    }

    // Whether no token is left in the line; lines of comments have none.
    bool is_line_end() {
        while (*at == ' ' || *at == '\t' || *at == '\r') at++;
        return *at == '\n' || *at == 0;
    }

    bool is_end() {
        skip();
        return *at == 0;
    }

    // The rest of the line, whatever it begins with.
    std::string_view line() {
        const char *first = at;
        skip_line();
        return {first, static_cast<std::size_t>(at - first)};
    }

private:
    void skip_line() {
        while (*at && *at != '\n') at++;
    }

    void skip() {
        for (;;) {
            while (*at && *at <= ' ') at++;
            if (*at != '%' && *at != '#') return;
            skip_line();
        }
    }

    std::vector<char> bytes;
    const char *at;
};

// Numbers and words for standard output, in one buffer.
class Page {
public:
    void word(std::string_view word) { text.append(word); }

    void number(std::uint64_t value) {
        char digits[20], *const end = digits + sizeof digits, *first = end;
        do *--first = static_cast<char>('0' + value % 10);
        while (value /= 10);
        text.append(first, static_cast<std::size_t>(end - first));
    }

    void line(std::string_view before, std::uint64_t value) {
        word(before);
        number(value);
        text.push_back('\n');
    }

    void write() const {
        if (std::fwrite(text.data(), 1, text.size(), stdout) != text.size()) fail("no output");
    }

private:
    std::string text;
};
