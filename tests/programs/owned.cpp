// Calls spki.hpp, which owns handles in C++. Prints the line of what is wrong, and ends with 1 then. The `list` gives key a all rights. The
// `sequence` has a certificate by a for b, the `key` that mostly asks. The key c, `other`, has no right.
#include <spki.hpp>

#include <array>
#include <cstdio>
#include <iterator>
#include <sstream>
#include <string>
#include <thread>
#include <utility>

// Unless this holds, prints its line and returns 1 from the test, which is a function without arguments. At its end a test returns 0.
#define CHECK(what)                                     \
    do {                                                \
        if (!(what)) {                                  \
            std::printf("line %d: %s\n", __LINE__, #what); \
            return 1;                                   \
        }                                               \
    } while (0)

static const std::string list = "(acl (entry (public-key (test a)) (propagate) (tag (*))))";
static const std::string pair
    = "(cert (issuer (public-key (test a))) (subject (public-key (test b))) (tag (*)))"
      "(signature (hash sha256 #d71ecfb335b8e4b04cb035426566a94e817a12cfcfa4dbf5b704b6cd670c7ad2#) (public-key (test a)) sig)";
static const std::string sequence = "(sequence " + pair + ")";
static const spki::proven_key key = spki::proven_key::assume("(public-key (test b))");
static const spki::proven_key other = spki::proven_key::assume("(public-key (test c))");
static const std::array<std::string_view, 2> words = {"ftp", "host"};
static const auto now = std::chrono::system_clock::from_time_t(1704067200);

// A verifier that accepts the value `sig` alone.
static bool is_sig(const spki::signature &signature) { return signature.value == "3:sig"; }

// The line with which a call is refused, or nothing if it is not.
template <typename Call> static std::string refusal(Call call)
{
    try {
        call();
    } catch (const spki::refused &why) {
        return why.what();
    }
    return "";
}

// Whether a call throws std::logic_error.
template <typename Call> static bool is_misuse(Call call)
{
    try {
        call();
    } catch (const std::logic_error &) {
        return true;
    }
    return false;
}

// A guard grants by a valid signature of the right key alone. A decision is no number, and a handle has one owner.
static int decisions()
{
    spki::guard guard(list);
    CHECK(guard.entries() == 1 && guard.decide({sequence, key, words, now}, is_sig));
    CHECK(!guard.decide({sequence, key, words, now}, [](auto) { return false; }));
    CHECK(!guard.decide({"(sequence)", key, words, now}, is_sig) && !guard.decide({sequence, other, words, now}, is_sig));
    static_assert(!std::is_convertible_v<spki::decision, bool> && !std::is_convertible_v<spki::decision, int>, "a decision is no number");
    static_assert(!std::is_copy_constructible_v<spki::guard> && !std::is_copy_constructible_v<spki::asked>, "a handle has one owner");
    return 0;
}

// An opened question keeps a copy of its text, outlives its guard and a move, and is granted once its signature is marked.
static int opened_question()
{
    auto guard = std::make_unique<spki::guard>(list);
    std::string text = sequence;
    spki::asked asked = guard->ask({text, key, words, now});
    text.assign(text.size(), ' ');
    guard.reset();
    spki::asked moved = std::move(asked);
    CHECK(moved.size() == 1);
    const spki::signature listed = moved.signature(0);
    CHECK(listed.key == "(10:public-key(4:test1:a))" && listed.value == "3:sig" && listed.octets == "sig");
    CHECK(!moved.decide() && moved.explain() == "item 1 NotAccepted\n");
    for (std::size_t place : {std::size_t(1), std::size_t(0x101), std::size_t(-1), std::size_t(-255)}) // (what verifiers might return)
        CHECK(is_misuse([&] { moved.mark(place); }) && !moved.decide());
    moved.mark(0);
    CHECK(moved.decide() && moved.decide() && moved.explain() == "entry 1 grants\n");
    CHECK(moved.reduce() == "entry 1 (five (subject (public-key (test b))) (tag (*)))\n");
    return 0;
}

// Words of a text, which are made while they are read.
struct typed {
    std::istream &text;
    std::istream_iterator<std::string> begin() const { return {text}; }
    std::istream_iterator<std::string> end() const { return {}; }
};

// A question owns its octets: all that it was made of may end before it is asked, and so may the one that it is a copy of.
static int kept_questions()
{
    const std::string path = "/builds/a-path-that-is-too-long-to-be-inside-of-a-string";
    const spki::guard guard("(acl (entry (public-key (test a)) (propagate) (tag (files " + path + "))))");
    auto made = std::make_unique<spki::question>(std::string(sequence), key, std::vector<std::string>{"files", path}, now);
    const spki::question moved = std::move(*made);
    CHECK(guard.decide(*made, is_sig));
    made.reset();
    CHECK(guard.decide(moved, is_sig));
    std::istringstream text("files " + path), other_text("files /builds/x");
    CHECK(guard.decide({sequence, key, typed{text}, now}, is_sig) && !guard.decide({sequence, key, typed{other_text}, now}, is_sig));
    return 0;
}

// Two clients at once: c shows a certificate in the name of a, whose signature is not valid. A mark for b grants nothing to c.
static int two_clients()
{
    const std::string forged = "(sequence (cert (issuer (public-key (test a))) (subject (public-key (test c))) (tag (*)))"
                               "(signature (hash sha256 #b0c7e53153c3b09dad60263b3b4738aa1ae756cc4642305bcf4fdc4114ff0d5d#)"
                               " (public-key (test a)) forged))";
    spki::guard guard(list);
    spki::asked good = guard.ask({sequence, key, words, now}), bad = guard.ask({forged, other, words, now});
    CHECK(good.verify(is_sig).number == 1 && bad.verify(is_sig).number == 0);
    CHECK(good.decide() && !bad.decide());
    std::swap(good, bad);
    CHECK(bad.decide() && !good.decide());
    return 0;
}

// Two equal signatures of a question are listed at two places. The answer is yes only if both are marked.
static int equal_signatures()
{
    const std::string own = "(cert (issuer (public-key (test a))) (subject (public-key (test a))) (propagate) (tag (*)))"
                            "(signature (hash sha256 #b26a73c3cdcb26bbb71fa21531b5b6a1745fc316ddfcf53862a174f5dccebfb6#) (public-key (test a)) sig)";
    spki::guard guard(list);
    const std::string twice = "(sequence " + own + own + ")";
    for (std::size_t place : {0, 1}) {
        spki::asked asked = guard.ask({twice, spki::proven_key::assume("(public-key (test a))"), words, now});
        CHECK(asked.size() == 2);
        asked.mark(place);
        CHECK(!asked.decide());
        asked.mark(1 - place);
        CHECK(asked.decide());
    }
    return 0;
}

// A yes holds from 1970 until its window ends, and no second longer. A no never holds. The clock counts nanoseconds, so it has no time after 2262.
static int kept_decisions()
{
    using std::chrono::seconds;
    const auto ending = [](const char *date) {
        return "(acl (entry (public-key (test a)) (propagate) (tag (*)) (not-after \"" + std::string(date) + "\")))";
    };
    const auto last = std::chrono::system_clock::from_time_t(1782863999); // (2026-06-30 23:59:59)
    spki::guard guard(ending("2026-06-30_23:59:59")), late(ending("9998-01-01_00:00:00")), endless(list);
    const spki::decision kept = guard.decide({sequence, key, words, now}, is_sig);
    CHECK(kept.until() == last && !guard.decide({sequence, other, words, now}, is_sig).until());
    for (const auto &[time, holds] : {std::pair(last - seconds(1), true), {last + std::chrono::milliseconds(999), true}, {last + seconds(1), false}})
        CHECK(kept.holds_at(time) == holds && bool(guard.decide({sequence, key, words, time}, is_sig)) == holds);
    CHECK(!kept.holds_at(std::chrono::system_clock::from_time_t(-1)) && !guard.decide({sequence, other, words, now}, is_sig).holds_at(now));
    CHECK(late.decide({sequence, key, words, now}, is_sig).until() > std::chrono::system_clock::time_point::max() - seconds(2));
    const spki::decision always = endless.decide({sequence, key, words, now}, is_sig);
    CHECK(always && !always.until() && always.holds_at(last + seconds(1)));
    return 0;
}

// No signature is verified if the answer would be no even if all were valid.
static int impossible_requests()
{
    spki::guard guard(list);
    int calls = 0;
    const auto count_and_accept = [&](auto) { return ++calls > 0; };
    CHECK(!guard.decide({sequence, other, words, now}, count_and_accept) && calls == 0);
    CHECK(guard.decide({sequence, key, words, now}, count_and_accept) && calls == 1);
    return 0;
}

// A moved guard counts 0 entries, a moved question 0 signatures, and it decides no. All else but verifying is misuse. A moved key keeps its text.
static int moved_handles()
{
    spki::guard guard(list);
    spki::asked asked = guard.ask({sequence, key, words, now});
    const spki::asked other = std::move(asked);
    CHECK(asked.verify(is_sig).number == 0 && asked.size() == 0 && !asked.decide());
    CHECK(is_misuse([&] { asked.signature(0); }) && is_misuse([&] { asked.mark(0); }));
    CHECK(is_misuse([&] { asked.explain(); }) && is_misuse([&] { asked.reduce(); }));
    spki::proven_key client = key;
    const spki::proven_key copy = std::move(client);
    CHECK(client.text() == key.text() && copy.text() == key.text());
    const spki::guard last = std::move(guard);
    CHECK(guard.entries() == 0 && last.entries() == 1);
    CHECK(is_misuse([&] { guard.ask({sequence, key, words, now}); }) && is_misuse([&] { (void)guard.decide({sequence, key, words, now}, is_sig); }));
    return 0;
}

// A list or question that is refused throws spki::refused with the line that says why.
static int refusals()
{
    spki::guard guard(list);
    CHECK(refusal([] { spki::guard("(acl (entry))"); }) == "refused acl 1 Shape");
    CHECK(refusal([&] { guard.ask({sequence + "x", key, words, now}); }) == "refused sequence Trailing " + std::to_string(sequence.size()));
    CHECK(refusal([&] { guard.ask({sequence, key, std::vector<std::string_view>(), now}); }) == "refused request EmptyList");
    CHECK(refusal([&] { guard.ask({sequence, key, std::vector<std::string_view>(65, "w"), now}); }) == "refused question TooManyWords");
    spki_limits limits = spki::usual_limits;
    limits.octets = 64;
    spki::guard narrow(list, SPKI_STRICT, limits);
    CHECK(refusal([&] { narrow.ask({sequence, key, words, now}); }) == "refused question TooLong");
    return 0;
}

// A login proves its key. A certificate proves nothing about who shows it. A time before 1970 is refused.
static int logins()
{
    const spki::signature login = {"(public-key (test b))", "(5:login7:service5:nonce)", "3:sig", "sig"};
    CHECK(spki::proven_key::by(login, is_sig)->text() == key.text());
    CHECK(!spki::proven_key::by(login, [](auto) { return false; }));
    spki::guard guard(list);
    const spki::asked asked = guard.ask({sequence, key, words, now});
    CHECK(!spki::proven_key::by(asked.signature(0), is_sig));
    CHECK(refusal([&] { guard.ask({sequence, key, words, std::chrono::system_clock::from_time_t(0) - std::chrono::nanoseconds(1)}); })
          == "refused at BadDate");
    return 0;
}

// SPKI_LITERAL has all octets of a literal, without the 00 behind it.
static int literals()
{
    const spki_text text = SPKI_LITERAL("a\0b");
    CHECK(text.length == 3 && spki::view_of(text) == std::string_view("a\0b", 3));
    CHECK(SPKI_LITERAL("").length == 0);
    return 0;
}

// Threads ask one guard and one question, 20 times each. Then others decide and end one question each, while the guard ends: each count is 21.
static int threads()
{
    auto guard = std::make_unique<spki::guard>(list);
    spki::asked marked = guard->ask({sequence, key, words, now});
    (void)marked.verify(is_sig);
    const spki::asked shared = std::move(marked);
    std::array<int, 4> granted{};
    std::vector<std::thread> asking, ending;
    for (int &count : granted)
        asking.emplace_back([&] {
            for (int turn = 0; turn < 20; turn++)
                count += guard->decide({sequence, key, words, now}, is_sig) && shared.decide() ? 1 : 0;
        });
    for (std::thread &thread : asking)
        thread.join();
    for (int &count : granted)
        ending.emplace_back([&count, own = guard->ask({sequence, key, words, now})]() mutable {
            count += own.verify(is_sig).number == 1 && own.decide() ? 1 : 0;
        });
    guard.reset();
    for (std::thread &thread : ending)
        thread.join();
    for (int count : granted)
        CHECK(count == 21);
    return 0;
}

int main()
{
    return decisions() || opened_question() || kept_questions() || two_clients() || equal_signatures() || kept_decisions() || impossible_requests()
           || moved_handles() || refusals() || logins() || literals() || threads();
}
