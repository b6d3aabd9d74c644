"""Usage: mnemonic_check.py PROGRAM VECTORS

Holds PROGRAM, the program `phrases` over the proved library, to the package mnemonic of Python (Debian's python3-mnemonic), which shares no
code with this project, and to its English word list. VECTORS has BIP 39's published phrases, a line each: the entropy in hexadecimal, a space,
and the words.
- The card's word numbers of random entropy are the phrase that `to_mnemonic` makes.
- The word numbers of such phrases go back to what `to_entropy` gives.
- With one word changed they are refused, with 11, where `check` says no, and go back to their entropy where it says yes.
Lengths are in bytes. Exit status: 0 where all that holds; 1 otherwise.
"""
import functools
import random
import subprocess
import sys

from mnemonic import Mnemonic

SEED = 0x7265_6164_6c65_7769
PHRASES = 10_000
ENTROPY_BYTES = (16, 20, 24, 28, 32)
NUMBER_BYTES = 2
NOT_REFUSED = 0
WRONG_CHECKSUM = 11


@functools.lru_cache(maxsize=None)
def language_of(word):
    """The package's own answer for a first word. It reads its word lists anew each time, so it is asked once for each word."""
    return Mnemonic.detect_language(word)


class English(Mnemonic):
    def __init__(self):
        super().__init__("english")
        self.numbers = {word: number for number, word in enumerate(self.wordlist)}

    @classmethod
    def detect_language(cls, code):
        return language_of(code.split(" ")[0])

    def words(self, phrase):
        """The bytes of a phrase's word numbers."""
        return b"".join(self.numbers[word].to_bytes(NUMBER_BYTES, "big") for word in phrase.split(" "))


def expect(holds, what):
    if not holds:
        sys.exit(f"mnemonic: {what}")


def hexadecimal(data):
    return data.hex() or "-"


def calls(program, name, inputs):
    """What the program answers, a line for each input."""
    text = "".join(f"{name} {hexadecimal(data)}\n" for data in inputs)
    run = subprocess.run([program], input=text, stdout=subprocess.PIPE, text=True, check=False)
    expect(run.returncode == 0, f"the program ends with status {run.returncode}: {run.stdout[-300:].strip()}")
    answers = run.stdout.splitlines()
    expect(len(answers) == len(inputs), f"{len(answers)} answers to {len(inputs)} calls")
    return answers


def taken_back(program, words):
    """ENTROPY's refusal and the entropy, for each."""
    answers = (line.split(" ") for line in calls(program, "entropy", words))
    return [(int(refusal), b"" if data == "-" else bytes.fromhex(data)) for refusal, data in answers]


def published(program, english, file):
    with open(file, encoding="utf-8") as lines:
        pairs = [line.rstrip("\n").split(" ", 1) for line in lines]
    expect(len(pairs) > 0, "no published phrases")
    entropies, phrases = [bytes.fromhex(pair[0]) for pair in pairs], [pair[1] for pair in pairs]
    expect([english.to_mnemonic(entropy) for entropy in entropies] == phrases, "the package makes other phrases than the published ones")
    words = [english.words(phrase) for phrase in phrases]
    expect(calls(program, "words", entropies) == [data.hex() for data in words], "the card makes other words than the published ones")
    wanted = [(NOT_REFUSED, entropy) for entropy in entropies]
    expect(taken_back(program, words) == wanted, "a published phrase goes back to another entropy")
    print(f"mnemonic: {len(phrases)} published phrases, both ways")


def made(program, english, entropies):
    """The card makes the phrases that the package makes."""
    phrases = [english.to_mnemonic(entropy) for entropy in entropies]
    for entropy, phrase, answer in zip(entropies, phrases, calls(program, "words", entropies)):
        expect(answer == english.words(phrase).hex(), f"the card makes {answer} of {entropy.hex()}, and not: {phrase}")


def reversed_to(program, english, phrases):
    for phrase, found in zip(phrases, taken_back(program, [english.words(phrase) for phrase in phrases])):
        wanted = (NOT_REFUSED, bytes(english.to_entropy(phrase)))
        expect(found == wanted, f"ENTROPY gives {found} instead of {wanted} for: {phrase}")


def with_other_word(draw, english, phrase):
    words = phrase.split(" ")
    at = draw.randrange(len(words))
    further = 1 + draw.randrange(len(english.wordlist) - 1)
    words[at] = english.wordlist[(english.numbers[words[at]] + further) % len(english.wordlist)]
    return " ".join(words)


def damaged(program, english, phrases):
    """How many are refused, and how many are phrases again."""
    right = 0
    for phrase, found in zip(phrases, taken_back(program, [english.words(phrase) for phrase in phrases])):
        is_phrase = english.check(phrase)
        wanted = (NOT_REFUSED, bytes(english.to_entropy(phrase))) if is_phrase else (WRONG_CHECKSUM, b"")
        expect(found == wanted, f"ENTROPY gives {found} instead of {wanted} for: {phrase}")
        right += is_phrase
    return len(phrases) - right, right


def main(program, file):
    english = English()
    published(program, english, file)
    draw = random.Random(SEED)
    for entropy_bytes in ENTROPY_BYTES:
        made(program, english, [draw.randbytes(entropy_bytes) for _ in range(PHRASES)])
        phrases = [english.to_mnemonic(draw.randbytes(entropy_bytes)) for _ in range(PHRASES)]
        reversed_to(program, english, phrases)
        refused, right = damaged(program, english, [with_other_word(draw, english, phrase) for phrase in phrases])
        expect(refused > 0, "no damaged phrase was refused")
        count = len(phrases[0].split(" "))
        print(f"mnemonic: {count} words: {PHRASES} phrases by the card, {PHRASES} back; of {PHRASES} with a word changed {refused} refused, "
              f"{right} right again")


if __name__ == "__main__":
    if len(sys.argv) != 3:
        sys.exit(__doc__.strip())
    main(sys.argv[1], sys.argv[2])
