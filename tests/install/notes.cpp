// The desk's archive alone, in C++. Of each plan that it is given: its refusal numbers for readers 0 to 4, and its notes.
#include "read.h"

#include <iostream>
#include <string>

static std::string note(std::size_t length, std::uint32_t number)
{
    std::uint8_t bytes[FARNKUPPEL_NOTE_BYTES];
    std::uint32_t answer[FARNKUPPEL_NOTE_WORDS];
    farnkuppel_note(file, length, number, bytes, sizeof bytes, answer, FARNKUPPEL_NOTE_WORDS);
    return std::string(bytes, bytes + answer[FARNKUPPEL_NOTE_LENGTH]);
}

int main(int count, char **words)
{
    for (int i = 1; i < count; i++) {
        std::size_t length = read_file(words[i]);
        for (std::uint32_t reader = 0; reader <= FARNKUPPEL_NEWEST + 1; reader++)
            std::cout << farnkuppel_refusal(file, length, reader) << ' ';
        std::cout << note(length, 1) << ';' << note(length, 2) << '\n';
    }
    return farnkuppel_interface() == FARNKUPPEL_INTERFACE ? 0 : 1;
}
