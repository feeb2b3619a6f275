// Refuses allocations of a program, and shortens its writes: a library to be loaded before the program's own (LD_PRELOAD).
//
// What it does is told by the environment, read once:
//   REFUSE_AT=n      the n-th allocation is refused, counted from 1; 0, or none, refuses none
//   REFUSE_LATER=1   all later ones are refused too
//   REFUSE_EACH=k    every k-th allocation is refused in turn: before it the process forks twice, the one child is refused it, the other
//                    it and all later ones, and how each child ends is compared with REFUSE_USUAL and REFUSE_STATUS. The process itself
//                    goes on with the allocation granted. So what a run did before the refusal is not done again for each number
//   REFUSE_FROM=n    the first number of REFUSE_EACH, 1 where there is none
//   REFUSE_USUAL=f   the file f holds the usual output, and REFUSE_STATUS=s is the usual status
//   REFUSE_COUNT=f   at the end the file f is given the number of allocations that were asked for and, for children that were refused one
//                    and for those that were refused all later ones too, how many ended as usual, with `reaver,memory`, and with status 7
//                    and nothing or a prefix of the usual output; then a line for each child that ended otherwise
//   SHORT_WRITE=k    a write to standard output takes at most k bytes of what it is given
//   FAIL_WRITE=k     after k bytes in all a write to standard output fails
//   SHORT_READ=k     a read gives at most k bytes
//   FAIL_READ=k      after k bytes in all a read fails
//
// An allocation is a call of malloc, calloc, realloc, posix_memalign, aligned_alloc, or mmap of memory of no file. A refused one gives
// what the C library gives where there is no memory. Allocations before the library has read the environment are granted.
//
// Build: c++ -std=c++17 -O2 -fPIC -shared -o refuse.so refuse.cpp -ldl
#include <cerrno>
#include <cstdint>
#include <cstdio>
#include <cstdlib>
#include <cstring>
#include <dlfcn.h>
#include <fcntl.h>
#include <sys/mman.h>
#include <sys/wait.h>
#include <unistd.h>

namespace {

constexpr int files = 16;
constexpr std::size_t longest = 1 << 20;
constexpr int memory_status = 7;
constexpr char memory_text[] = "reaver,memory\n";

bool ready = false;
bool later = false;
std::uint64_t asked = 0;
std::uint64_t refused_at = 0;
std::uint64_t each = 0;
std::uint64_t from = 1;
// What reads or writes may do: the most bytes of one, where that is not 0, the bytes after which they fail, and the bytes so far.
struct Bounds {
    std::uint64_t most = 0;
    std::uint64_t fails_after = UINT64_MAX;
    std::uint64_t done = 0;
};

Bounds reads;
Bounds writes;
const char *count_file = nullptr;

// How the children of each of the two ways ended: as usual, with `reaver,memory`, with less.
std::uint64_t ended[2][3];
char usual[longest];
std::size_t usual_length = 0;
int usual_status = 0;
char shown[longest];
int report = -1;
int out = -1;
int err = -1;

std::uint64_t number(const char *name, std::uint64_t otherwise) {
    const char *text = std::getenv(name);
    return text == nullptr ? otherwise : std::strtoull(text, nullptr, 10);
}

template <typename Function> Function next(const char *name) { return reinterpret_cast<Function>(dlsym(RTLD_NEXT, name)); }

ssize_t write_all(int file, const char *text, std::size_t length) {
    static auto real = next<ssize_t (*)(int, const void *, size_t)>("write");
    return real(file, text, length);
}

// A read or write within its bounds.
template <typename Operation> ssize_t bounded(Bounds &bounds, std::size_t length, Operation operation) {
    if (bounds.done >= bounds.fails_after) {
        errno = EIO;
        return -1;
    }
    if (bounds.most != 0 && length > bounds.most) length = bounds.most;
    if (length > bounds.fails_after - bounds.done) length = bounds.fails_after - bounds.done;
    ssize_t done = operation(length);
    if (done > 0) bounds.done += static_cast<std::uint64_t>(done);
    return done;
}

// What the child of a way showed and how it ended, told as the number of a kind; 3 where it is none.
int kind_of(int status, std::size_t length, bool told) {
    if (told || !WIFEXITED(status) || length > longest) return 3;
    bool is_usual = length == usual_length && std::memcmp(shown, usual, length) == 0;
    if (WEXITSTATUS(status) == usual_status && is_usual) return 0;
    if (WEXITSTATUS(status) != memory_status) return 3;
    if (length == sizeof memory_text - 1 && std::memcmp(shown, memory_text, length) == 0) return 1;
    return length <= usual_length && std::memcmp(shown, usual, length) == 0 ? 2 : 3;
}

// Waits for a child of a way and counts how it ended.
void count(pid_t child, int way) {
    int status = 0;
    while (waitpid(child, &status, 0) < 0 && errno == EINTR) {
    }
    off_t length = lseek(out, 0, SEEK_END);
    ssize_t read_bytes = pread(out, shown, longest, 0);
    int kind = kind_of(status, read_bytes < length ? longest + 1 : static_cast<std::size_t>(length), lseek(err, 0, SEEK_END) != 0);
    if (kind < 3) {
        ended[way][kind] += 1;
        return;
    }
    for (std::size_t place = 0; place < 40; place++)
        if (shown[place] == '\n') shown[place] = '`';
    shown[length < 40 ? length : 40] = 0;
    char line[160];
    int line_length = std::snprintf(line, sizeof line, "otherwise %llu %d status %d bytes %lld %.40s\n", static_cast<unsigned long long>(asked), way,
                                    WIFEXITED(status) ? WEXITSTATUS(status) : -WTERMSIG(status), static_cast<long long>(length), shown);
    write_all(report, line, static_cast<std::size_t>(line_length));
}

// Forks, and in the child says that this allocation is refused. Whether this is the child.
bool is_refused_child(int way) {
    off_t at[files];
    for (int file = 3; file < files; file++) at[file] = lseek(file, 0, SEEK_CUR);
    if (ftruncate(out, 0) != 0 || ftruncate(err, 0) != 0) std::abort();
    lseek(out, 0, SEEK_SET);
    lseek(err, 0, SEEK_SET);
    pid_t child = fork();
    if (child < 0) std::abort();
    if (child == 0) {
        each = 0;
        refused_at = asked;
        later = way == 1;
        count_file = nullptr;
        dup2(out, 1);
        dup2(err, 2);
        return true;
    }
    count(child, way);
    for (int file = 3; file < files; file++)
        if (at[file] >= 0 && file != out && file != err && file != report) lseek(file, at[file], SEEK_SET);
    return false;
}

// Whether this allocation, the next one, is refused.
bool refuses() {
    if (!ready) return false;
    asked += 1;
    if (each != 0 && asked >= from && (asked - from) % each == 0) {
        int before = errno;
        bool is_child = is_refused_child(0) || is_refused_child(1);
        errno = is_child ? ENOMEM : before;
        return is_child;
    }
    bool is = refused_at != 0 && (asked == refused_at || (later && asked > refused_at));
    if (is) errno = ENOMEM;
    return is;
}

void read_usual() {
    int file = open(std::getenv("REFUSE_USUAL"), O_RDONLY);
    ssize_t length = read(file, usual, longest);
    if (length < 0) std::abort();
    usual_length = static_cast<std::size_t>(length);
    close(file);
    usual_status = static_cast<int>(number("REFUSE_STATUS", 0));
    out = memfd_create("out", 0);
    err = memfd_create("err", 0);
}

__attribute__((constructor)) void begin() {
    refused_at = number("REFUSE_AT", 0);
    later = number("REFUSE_LATER", 0) != 0;
    each = number("REFUSE_EACH", 0);
    from = number("REFUSE_FROM", 1);
    writes.most = number("SHORT_WRITE", 0);
    writes.fails_after = number("FAIL_WRITE", UINT64_MAX);
    reads.most = number("SHORT_READ", 0);
    reads.fails_after = number("FAIL_READ", UINT64_MAX);
    count_file = std::getenv("REFUSE_COUNT");
    if (count_file != nullptr) report = open(count_file, O_WRONLY | O_CREAT | O_TRUNC, 0644);
    if (each != 0) read_usual();
    ready = true;
}

__attribute__((destructor)) void end() {
    ready = false;
    if (count_file == nullptr) return;
    char line[200];
    auto told = [](std::uint64_t n) { return static_cast<unsigned long long>(n); };
    int length = std::snprintf(line, sizeof line, "asked %llu %llu %llu %llu %llu %llu %llu\n", told(asked), told(ended[0][0]), told(ended[0][1]),
                               told(ended[0][2]), told(ended[1][0]), told(ended[1][1]), told(ended[1][2]));
    write_all(report, line, static_cast<std::size_t>(length));
}

} // namespace

extern "C" {

void *__libc_malloc(size_t);
void *__libc_calloc(size_t, size_t);
void *__libc_realloc(void *, size_t);
void *__libc_memalign(size_t, size_t);

void *malloc(size_t size) { return refuses() ? nullptr : __libc_malloc(size); }
void *calloc(size_t count, size_t size) { return refuses() ? nullptr : __libc_calloc(count, size); }
void *realloc(void *old, size_t size) { return refuses() ? nullptr : __libc_realloc(old, size); }
void *aligned_alloc(size_t alignment, size_t size) { return refuses() ? nullptr : __libc_memalign(alignment, size); }

int posix_memalign(void **result, size_t alignment, size_t size) {
    if (refuses()) return ENOMEM;
    *result = __libc_memalign(alignment, size);
    return *result == nullptr ? ENOMEM : 0;
}

void *mmap(void *address, size_t length, int protection, int flags, int file, off_t offset) {
    static auto real = next<void *(*)(void *, size_t, int, int, int, off_t)>("mmap");
    if ((flags & MAP_ANONYMOUS) != 0 && refuses()) return MAP_FAILED;
    return real(address, length, protection, flags, file, offset);
}

ssize_t write(int file, const void *bytes, size_t length) {
    const char *text = static_cast<const char *>(bytes);
    return file != 1 ? write_all(file, text, length) : bounded(writes, length, [&](size_t most) { return write_all(file, text, most); });
}

ssize_t read(int file, void *bytes, size_t length) {
    static auto real = next<ssize_t (*)(int, void *, size_t)>("read");
    if (!ready) return real(file, bytes, length);
    return bounded(reads, length, [&](size_t most) { return real(file, bytes, most); });
}

} // extern "C"
