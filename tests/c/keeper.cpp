// Keeps shared memory for children, one after the other: keeper SIZE PAGE CURSORS. It does what the lines of its standard input say, and
// answers each with a line, 'done' or what failed:
//
//     run PROGRAM WORD..     starts a child, which has the number of its descriptor in place of the word @, and nothing to write to
//     look FILE              writes a look at the memory to FILE
//     words FILE             writes the words in it as they are
//     kill                   kills the child and waits for its end, which has to be by that
//
// What a child has to say goes to the error stream.

#include <fcntl.h>
#include <signal.h>
#include <sys/wait.h>
#include <unistd.h>

#include <cstdio>
#include <cstdlib>
#include <fstream>
#include <iostream>
#include <sstream>
#include <string>
#include <vector>

#include "povundiri_shared.hpp"

namespace {

using Words = std::vector<std::uint64_t>;

class Keeper {
public:
    explicit Keeper(const povundiri::Shape& shape) : memory_(shape) {}

    std::string answer(const std::string& line) {
        std::istringstream words(line);
        std::string command, file;
        words >> command;
        if (command == "run") return run(words);
        if (command == "kill") return kill_child();
        words >> file;
        return write(file, command == "look" ? memory_.look() : words_as_they_are());
    }

private:
    std::string run(std::istringstream& line) {
        std::vector<std::string> words;
        for (std::string word; line >> word;) words.push_back(word == "@" ? std::to_string(memory_.descriptor()) : word);
        std::vector<char*> pointers;
        for (std::string& word : words) pointers.push_back(word.data());
        pointers.push_back(nullptr);
        child_ = fork();
        if (child_ != 0) return child_ > 0 ? "done" : "fork";
        dup2(open("/dev/null", O_RDWR | O_CLOEXEC), STDIN_FILENO);
        dup2(STDIN_FILENO, STDOUT_FILENO);
        fcntl(memory_.descriptor(), F_SETFD, 0);
        execv(pointers[0], pointers.data());
        _exit(91);
    }

    std::string kill_child() {
        int status = 0;
        if (kill(child_, SIGKILL) != 0 || waitpid(child_, &status, 0) != child_) return "kill";
        return WIFSIGNALED(status) && WTERMSIG(status) == SIGKILL ? "done" : "status " + std::to_string(status);
    }

    // By their descriptor: nothing of the library is in between.
    Words words_as_they_are() const {
        Words words(static_cast<std::size_t>(memory_.shape().size));
        const auto bytes = static_cast<ssize_t>(8 * words.size());
        if (pread(memory_.descriptor(), words.data(), 8 * words.size(), 8) != bytes) words.clear();
        return words;
    }

    static std::string write(const std::string& path, const Words& words) {
        std::ofstream file(path, std::ios::binary);
        file.write(reinterpret_cast<const char*>(words.data()), static_cast<std::streamsize>(8 * words.size()));
        return file.flush() ? "done" : "write";
    }

    povundiri::SharedMemory memory_;
    pid_t child_ = -1;
};

}  // namespace

int main(int count, char** words) try {
    if (count != 4) return 2;
    const auto number = [words](int at) { return std::strtoull(words[at], nullptr, 10); };
    Keeper keeper(povundiri::shape(number(1), number(2), 0, number(3)));
    for (std::string line; std::getline(std::cin, line);) std::cout << keeper.answer(line) << std::endl;
} catch (const std::exception& fault) {
    std::fprintf(stderr, "%s\n", fault.what());
    return 1;
}
