// Confines this process by Landlock (files, signals) and seccomp (system calls), which it asks for
// itself: no privilege is needed.
#include "venue/confinement.h"

#include "common/descriptor.h"
#include "venue/landlock_rules.h"

#include <array>
#include <cerrno>
#include <cstddef>
#include <cstdint>
#include <cstdlib>
#include <filesystem>
#include <initializer_list>
#include <iostream>
#include <set>
#include <span>
#include <sstream>
#include <system_error>

#include <fcntl.h>
#include <linux/audit.h>
#include <linux/filter.h>
#include <linux/seccomp.h>
#include <sys/prctl.h>
#include <sys/resource.h>
#include <sys/stat.h>
#include <sys/syscall.h>

namespace gateway {

namespace {

namespace fs = std::filesystem;

[[noreturn]] void fail(const char *what) {
    throw std::system_error(errno, std::generic_category(), what);
}

// The file of a program, as it is looked up in PATH; empty where there is none.
fs::path find_program(const std::string &word) {
    if (word.find('/') != std::string::npos) {
        return word;
    }
    const char *path = std::getenv("PATH");
    std::istringstream places(path == nullptr ? "/usr/bin:/bin" : path);
    for (std::string place; std::getline(places, place, ':');) {
        if (fs::exists(fs::path(place) / word)) {
            return fs::path(place) / word;
        }
    }
    return {};
}

// Of a program PREFIX/bin/NAME all of PREFIX (or PREFIX/shims, where several versions stand there).
fs::path installed_in(const fs::path &program) {
    const fs::path folder = program.parent_path();
    const bool is_part = folder.filename() == "bin" || folder.filename() == "shims";
    return is_part ? folder.parent_path() : folder;
}

// What the command reads.
std::set<fs::path> readable(const std::vector<std::string> &command) {
    std::set<fs::path> all = {"/usr", "/bin", "/lib", "/lib64", "/etc/ld.so.cache"};
    std::error_code none;
    const fs::path program = find_program(command.front());
    all.insert(installed_in(program));
    all.insert(installed_in(fs::canonical(program, none)));
    for (const std::string &word : command) {
        if (word.find('/') != std::string::npos && fs::exists(word, none)) {
            all.insert(fs::absolute(word).parent_path());
        }
    }
    all.erase("");
    all.erase("/");
    return all;
}

// A path that is not there is none that could be read.
void allow(const Descriptor &ruleset, const fs::path &path, std::uint64_t access) {
    const Descriptor opened(::open(path.c_str(), O_PATH | O_CLOEXEC));
    struct stat found {};
    if (opened.number() < 0 || ::fstat(opened.number(), &found) != 0) {
        return;
    }
    landlock::Beneath rule;
    rule.allowed = S_ISDIR(found.st_mode) ? access : access & ~landlock::read_dir;
    rule.folder = opened.number();
    if (::syscall(landlock::add_rule, ruleset.number(), landlock::path_beneath, &rule, 0) != 0) {
        fail("Landlock, a rule");
    }
}

void confine_files(const std::vector<std::string> &command) {
    const long version = ::syscall(landlock::create_ruleset, nullptr, 0, landlock::ask_version);
    if (version < 1) {
        std::cerr << no_landlock;
        return;
    }
    const auto [rules, size] = landlock::all_of(version);
    const Descriptor ruleset(
        static_cast<int>(::syscall(landlock::create_ruleset, &rules, size, 0)));
    if (ruleset.number() < 0) {
        fail("Landlock");
    }
    for (const fs::path &path : readable(command)) {
        allow(ruleset, path, landlock::execute | landlock::read_file | landlock::read_dir);
    }
    allow(ruleset, "/dev/null", landlock::read_file | landlock::write_file);
    allow(ruleset, "/dev/urandom", landlock::read_file);
    if (::syscall(landlock::restrict_self, ruleset.number(), 0) != 0) {
        fail("Landlock");
    }
}

#if defined(__x86_64__)
constexpr std::uint32_t machine = AUDIT_ARCH_X86_64;
#elif defined(__aarch64__)
constexpr std::uint32_t machine = AUDIT_ARCH_AARCH64;
#else
#error "which calls of the system the venue may make is not known on this machine"
#endif

// Sockets; other processes, their memory, their signals and their share of the machine; a group of
// processes of its own, which is not the one that the gateway kills; the kernel's keys, programs
// and settings; and what makes a process see other files.
constexpr auto forbidden = std::to_array<unsigned>({SYS_socket,
                                                    SYS_socketpair,
                                                    SYS_bind,
                                                    SYS_listen,
                                                    SYS_accept,
                                                    SYS_accept4,
                                                    SYS_connect,
                                                    SYS_io_uring_setup,
                                                    SYS_io_uring_enter,
                                                    SYS_io_uring_register,
                                                    SYS_ptrace,
                                                    SYS_process_vm_readv,
                                                    SYS_process_vm_writev,
                                                    SYS_pidfd_open,
                                                    SYS_pidfd_getfd,
                                                    SYS_pidfd_send_signal,
                                                    SYS_tkill,
                                                    SYS_rt_sigqueueinfo,
                                                    SYS_rt_tgsigqueueinfo,
                                                    SYS_kcmp,
                                                    SYS_setpgid,
                                                    SYS_setsid,
                                                    SYS_setpriority,
                                                    SYS_ioprio_set,
                                                    SYS_sched_setparam,
                                                    SYS_sched_setscheduler,
                                                    SYS_sched_setattr,
                                                    SYS_sched_setaffinity,
                                                    SYS_migrate_pages,
                                                    SYS_move_pages,
                                                    SYS_keyctl,
                                                    SYS_add_key,
                                                    SYS_request_key,
                                                    SYS_bpf,
                                                    SYS_perf_event_open,
                                                    SYS_userfaultfd,
                                                    SYS_mount,
                                                    SYS_umount2,
                                                    SYS_pivot_root,
                                                    SYS_chroot,
                                                    SYS_unshare,
                                                    SYS_setns,
                                                    SYS_name_to_handle_at,
                                                    SYS_open_by_handle_at,
                                                    SYS_init_module,
                                                    SYS_finit_module,
                                                    SYS_delete_module,
                                                    SYS_kexec_load,
                                                    SYS_reboot,
                                                    SYS_swapon,
                                                    SYS_swapoff,
                                                    SYS_settimeofday,
                                                    SYS_clock_settime,
                                                    SYS_adjtimex,
                                                    SYS_clock_adjtime,
                                                    SYS_sethostname,
                                                    SYS_acct,
                                                    SYS_msgget,
                                                    SYS_semget,
                                                    SYS_shmget,
                                                    SYS_mq_open});

// What no Landlock forbids of a file that can't be opened: whose it is, who may read it, its times
// and its marks. (To cut it an older one does not forbid either.) The last four are calls that the
// headers of older systems lack: fchmodat2, setxattrat, removexattrat and file_setattr.
constexpr auto forbidden_of_files = std::to_array<unsigned>(
    {SYS_truncate, SYS_fchmod, SYS_fchmodat, SYS_fchown, SYS_fchownat, SYS_utimensat, SYS_setxattr,
     SYS_lsetxattr, SYS_fsetxattr, SYS_removexattr, SYS_lremovexattr, SYS_fremovexattr, 452, 463,
     466, 469});
#if defined(__x86_64__)
constexpr auto forbidden_of_old = std::to_array<unsigned>(
    {SYS_chmod, SYS_chown, SYS_lchown, SYS_utime, SYS_utimes, SYS_futimesat});
#else
constexpr std::array<unsigned, 0> forbidden_of_old{};
#endif

// Who is sent a signal, and which, when something happens to a file.
constexpr auto forbidden_of_fcntl = std::to_array<unsigned>({F_SETOWN, F_SETOWN_EX, F_SETSIG});

using Filter = std::vector<sock_filter>;

constexpr std::uint32_t refuse = SECCOMP_RET_ERRNO | EPERM;

void load(Filter &filter, std::size_t offset) {
    filter.push_back(BPF_STMT(BPF_LD | BPF_W | BPF_ABS, static_cast<std::uint32_t>(offset)));
}
void answer(Filter &filter, std::uint32_t what) {
    filter.push_back(BPF_STMT(BPF_RET | BPF_K, what));
}
// What follows is passed over, so many lines, where the value is another.
void unless_equal(Filter &filter, std::uint32_t value, std::uint8_t lines) {
    filter.push_back(BPF_JUMP(BPF_JMP | BPF_JEQ | BPF_K, value, 0, lines));
}

void forbid(Filter &filter, std::span<const unsigned> calls) {
    for (const unsigned call : calls) {
        unless_equal(filter, call, 1);
        answer(filter, refuse);
    }
}

void load_argument(Filter &filter, std::size_t number) {
    load(filter, offsetof(seccomp_data, args) + number * sizeof(std::uint64_t));
}

// A call whose first argument is a process: of itself alone.
void allow_of(Filter &filter, std::uint32_t call, std::initializer_list<std::uint32_t> itself) {
    unless_equal(filter, call, static_cast<std::uint8_t>(2 + 2 * itself.size()));
    load_argument(filter, 0);
    for (const std::uint32_t process : itself) {
        unless_equal(filter, process, 1);
        answer(filter, SECCOMP_RET_ALLOW);
    }
    answer(filter, refuse);
}

void forbid_of_fcntl(Filter &filter) {
    unless_equal(filter, SYS_fcntl, static_cast<std::uint8_t>(2 + 2 * forbidden_of_fcntl.size()));
    load_argument(filter, 1);
    for (const unsigned command : forbidden_of_fcntl) {
        unless_equal(filter, command, 1);
        answer(filter, refuse);
    }
    answer(filter, SECCOMP_RET_ALLOW);
}

Filter filter_for(std::uint32_t own) {
    Filter filter;
    load(filter, offsetof(seccomp_data, arch));
    filter.push_back(BPF_JUMP(BPF_JMP | BPF_JEQ | BPF_K, machine, 1, 0));
    answer(filter, SECCOMP_RET_KILL_PROCESS);
    load(filter, offsetof(seccomp_data, nr));
    // Numbers of the second set of calls that a processor of x86-64 has.
    filter.push_back(BPF_JUMP(BPF_JMP | BPF_JGE | BPF_K, 0x40000000, 0, 1));
    answer(filter, refuse);
    forbid(filter, forbidden);
    forbid(filter, forbidden_of_files);
    forbid(filter, forbidden_of_old);
    for (const unsigned call : {SYS_kill, SYS_tgkill}) {
        allow_of(filter, call, {own});
    }
    allow_of(filter, SYS_prlimit64, {0, own});
    forbid_of_fcntl(filter);
    answer(filter, SECCOMP_RET_ALLOW);
    return filter;
}

void confine_calls() {
    Filter filter = filter_for(static_cast<std::uint32_t>(::getpid()));
    const sock_fprog program{static_cast<unsigned short>(filter.size()), filter.data()};
    if (::prctl(PR_SET_SECCOMP, SECCOMP_MODE_FILTER, &program) != 0) {
        fail("seccomp");
    }
}

// What the command has of this process's environment: where it finds what it starts, such as a
// script's interpreter. Any other variable may hold a secret (PGPASSWORD); and what a venue answers
// is to hang on its input alone, not on a host's language or on a library that is loaded before its
// own (LD_PRELOAD, which it may not read here anyway).
constexpr auto passed_variables = std::to_array<const char *>({"PATH"});

std::vector<std::string> passed_environment() {
    std::vector<std::string> passed;
    for (const char *name : passed_variables) {
        if (const char *value = std::getenv(name)) {
            passed.push_back(std::string(name) + "=" + value);
        }
    }
    return passed;
}

// As exec takes them; they are valid for as long as the words.
std::vector<char *> pointers_to(std::vector<std::string> &words) {
    std::vector<char *> pointers;
    for (std::string &word : words) {
        pointers.push_back(word.data());
    }
    pointers.push_back(nullptr);
    return pointers;
}

} // namespace

std::vector<std::string> words_of_start(const std::vector<std::string> &command, bool is_confined) {
    if (!is_confined) {
        return command;
    }
    std::vector<std::string> words = {"/proc/self/exe", "--confined"};
    words.insert(words.end(), command.begin(), command.end());
    return words;
}

void become_confined(const std::vector<std::string> &command) {
    const rlimit no_core{};
    if (::setrlimit(RLIMIT_CORE, &no_core) != 0 || ::prctl(PR_SET_NO_NEW_PRIVS, 1, 0, 0, 0) != 0) {
        fail("the venue's process");
    }
    confine_files(command);
    confine_calls();
    std::vector<std::string> words = command;
    std::vector<std::string> environment = passed_environment();
    const std::vector<char *> arguments = pointers_to(words);
    const std::vector<char *> variables = pointers_to(environment);
    ::execvpe(arguments[0], arguments.data(), variables.data());
    fail(arguments[0]);
}

} // namespace gateway
