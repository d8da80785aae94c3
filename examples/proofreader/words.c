/* The word list that the station has built in: small letters, each word once. */
#include "proofreader.h"

static const char *const built_in[] = {
    "a", "about", "above", "after", "again", "all", "alphabet", "also", "am", "an", "and", "another", "answer",
    "answered", "any", "are", "as", "ask", "asked", "asks", "at", "away", "back", "be", "became", "because", "become",
    "been", "before", "began", "begin", "behind", "below", "between", "board", "board's", "both", "buffer", "but",
    "by", "call", "calls", "came", "can", "capital", "case", "clean", "cleaned", "clock", "column", "come", "comes",
    "comma", "could", "counted", "day", "desk", "device", "did", "do", "does", "done", "down", "each", "eight",
    "eleven", "end", "even", "ever", "every", "few", "find", "finished", "first", "five", "for", "found", "four",
    "from", "full", "gave", "get", "give", "given", "go", "goes", "good", "got", "great", "had", "half", "hand",
    "hard", "has", "have", "he", "head", "heading", "heard", "held", "her", "here", "high", "him", "his", "hold",
    "holder", "hour", "how", "if", "in", "ink", "interrupt", "into", "is", "it", "its", "job", "just", "keep",
    "keeps", "kept", "kind", "know", "large", "last", "late", "left", "less", "let", "letter", "letters", "like",
    "line", "list", "little", "log", "long", "look", "looks", "lost", "made", "make", "man", "many", "margin",
    "marks", "may", "me", "mean", "meantime", "men", "message", "might", "mind", "mistakes", "monitor", "month",
    "more", "most", "much", "must", "my", "name", "near", "need", "never", "new", "news", "newsletter", "next",
    "nine", "no", "nobody", "none", "nor", "not", "nothing", "now", "number", "of", "off", "office", "often", "old",
    "on", "once", "one", "only", "open", "operator", "or", "order", "other", "our", "out", "over", "own", "owners",
    "page", "pages", "paper", "part", "people", "person", "place", "plain", "please", "press", "print", "printed",
    "printer", "prints", "process", "proof", "proofs", "proved", "punch", "put", "question", "queue", "quick", "read",
    "reader", "reads", "ready", "real", "remedy", "rest", "ribbon", "right", "room", "round", "run", "running",
    "said", "same", "saw", "say", "says", "screen", "second", "see", "seen", "seldom", "semaphore", "send", "sent",
    "set", "seven", "several", "shall", "she", "sheet", "shop", "short", "should", "show", "six", "small", "so",
    "some", "soon", "sound", "speller", "spelling", "started", "station", "stay", "stays", "still", "stop", "stopped",
    "such", "table", "take", "takes", "tape", "tell", "ten", "than", "thank", "that", "the", "their", "them", "then",
    "there", "these", "they", "thing", "things", "think", "this", "those", "three", "through", "tick", "time",
    "title", "to", "today", "told", "too", "took", "turn", "two", "type", "under", "until", "up", "upon", "us", "use",
    "used", "usual", "very", "wait", "want", "was", "water", "way", "we", "week", "well", "went", "were", "what",
    "when", "where", "which", "while", "who", "whoever", "whole", "whose", "why", "will", "winter", "with", "without",
    "woman", "word", "words", "work", "worked", "world", "would", "write", "wrong", "wrote", "year", "years", "yes",
    "yet", "you", "young", "your",
};

unsigned built_in_words(const char *words[BUILT_IN_WORDS_MOST])
{
    const unsigned count = sizeof built_in / sizeof built_in[0];
    for (unsigned i = 0; i < count && i < BUILT_IN_WORDS_MOST; i++) words[i] = built_in[i];
    return count < BUILT_IN_WORDS_MOST ? count : BUILT_IN_WORDS_MOST;
}
