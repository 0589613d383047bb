#include "programs.hpp"
#include "rounds.hpp"
#include <fcntl.h>
#include <spawn.h>
#include <sys/wait.h>
#include <unistd.h>

extern char **environ;

// Starts the program with these two descriptors as its standard input and output.
static pid_t start(const std::vector<std::string> &program, int input, int output) {
    std::vector<char *> words;
    for (const std::string &word : program) words.push_back(const_cast<char *>(word.c_str()));
    words.push_back(nullptr);
    posix_spawn_file_actions_t actions;
    posix_spawn_file_actions_init(&actions);
    posix_spawn_file_actions_adddup2(&actions, input, 0);
    posix_spawn_file_actions_adddup2(&actions, output, 1);
    pid_t child = 0;
    int failed = posix_spawnp(&child, words[0], &actions, nullptr, words.data(), environ);
    posix_spawn_file_actions_destroy(&actions);
    demand(failed == 0, "cannot start " + program[0]);
    return child;
}

// All bytes of the pipe, at the front of `out`.
static void take_all(int pipe, Words &out, const std::string &name) {
    char *bytes = reinterpret_cast<char *>(out.data());
    size_t room = 4 * out.size();
    while (true) {
        ssize_t got = read(pipe, bytes, room);
        demand(got >= 0 && (got == 0 || room > static_cast<size_t>(got)), "the output of " + name + " does not fit");
        if (got == 0) return;
        bytes += got;
        room -= static_cast<size_t>(got);
    }
}

void run_program(const std::vector<std::string> &program, const std::string &input, Words &out) {
    int file = open(input.c_str(), O_RDONLY | O_CLOEXEC);
    int ends[2];
    demand(file >= 0 && pipe2(ends, O_CLOEXEC) == 0, "cannot read " + input);
    pid_t child = start(program, file, ends[1]);
    close(file);
    close(ends[1]);
    take_all(ends[0], out, program[0]);
    close(ends[0]);
    int status = 0;
    demand(waitpid(child, &status, 0) == child && status == 0, program[0] + " failed");
}
