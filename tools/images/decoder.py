"""The text of an instruction, as `tick dis` writes it, from its word: encoder.py the other way round."""

import encoder

BY_FUNCT = {}
for names, form in ((encoder.THREE, "{n} ${d},${s},${t}"), (encoder.BY_COUNT, "{n} ${d},${t},{c}"),
                    (encoder.BY_REGISTER, "{n} ${d},${t},${s}"), (encoder.FROM_PRODUCT, "{n} ${d}"),
                    (encoder.TO_PRODUCT, "{n} ${s}"), (encoder.PRODUCT, "{n} ${s},${t}"), ({"jr": 8}, "{n} ${s}"),
                    ({"jalr": 9}, "{n} ${d},${s}"), ({"syscall": 12}, "{n}"), ({"break": 13}, "{n} {b}")):
    BY_FUNCT.update({number: (name, form) for name, number in names.items()})
BY_CODE = {}
for names, form in ((encoder.JUMP, "{n} {j:#010x}"), (encoder.TWO_BRANCH, "{n} ${s},${t},{i}"),
                    (encoder.ONE_BRANCH, "{n} ${s},{i}"), (encoder.IMMEDIATE, "{n} ${t},${s},{i}"),
                    (encoder.ACCESS, "{n} ${t},{i}(${s})"), ({"lui": 15}, "{n} ${t},{i}")):
    BY_CODE.update({number: (name, form) for name, number in names.items()})
BY_SIGN = {number: (name, "{n} ${s},{i}") for name, number in encoder.SIGN_BRANCH.items()}
UNSIGNED = {"andi", "ori", "xori", "lui"}


def text(word):
    """The text of a word that is an instruction."""
    code, s, t, d, c = word >> 26, word >> 21 & 31, word >> 16 & 31, word >> 11 & 31, word >> 6 & 31
    name, form = BY_FUNCT[word & 63] if code == 0 else BY_SIGN[t] if code == 1 else BY_CODE[code]
    half = word & 65535
    signed = half if name in UNSIGNED or half < 32768 else half - 65536
    found = form.format(n=name, s=s, t=t, d=d, c=c, b=word >> 6 & 0xFFFFF, i=signed, j=(word & 0x3FFFFFF) * 4)
    if encoder.word(found) != word:
        raise ValueError(f"{word:#010x} is no instruction")
    return found
