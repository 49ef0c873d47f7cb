#!/usr/bin/env python3
"""Writes texts to time layouts on, each a paragraph of UTF-8 without a separator.

usage: tools/bench_texts.py FOLDER

The ordinary ones have about 1,000 characters, one of them ten times as many, three of them 20, and two of them one.
Texts of kinds that people write have 1,000, and a million if their names say so. Two files have many short texts, one
on each line. The others are hard for an engine that searches back and forth; their names say how many characters they
have.
"""
import os
import random
import sys

HEBREW = 'אבן בית גשר דלת הרים ורד זית חלון טבע ילד'.split()
ARABIC = 'قلم باب شمس قمر بحر جبل نهر مدينة طريق حديقة'.split()
LATIN = 'paper river stone cloud window garden letter number'.split()

ENGLISH = 'A reader of plain words, such as these, wants them shown in 1 or 2 lines (more or less) and quickly. '
HEBREW_TEXT = 'ספרים רבים נכתבו בשנת 1998 על הנושא הזה, וגם מאמרים קצרים. '
HEBREW_WITH_VOWELS = 'שָׁלוֹם לְכֻלָּם, בּוֹאוּ וְנִקְרָא יַחַד. '
ARABIC_TEXT = 'كتبت كتب كثيرة في سنة ١٩٩٨ عن هذا الموضوع، وكذلك مقالات قصيرة. '
CODE = 'for (let i = 0; i < rows[n].length; i++) { call(rows[n][i], "אב", f(x)); } '
PERSIAN = 'کتاب‌ها و نامه‌هایی که می‌نویسیم؛ در سال ۱۳۹۹ (یا 2020) خوانده می‌شوند و نمی‌مانند. '

HEBREW_NEWS = ('ראש הממשלה הודיע אתמול בערב כי הדיון בוועדת הכספים של הכנסת יימשך גם השבוע משרד האוצר מסר תגובה מנכ"ל '
               'החברה דיווחה על רווח נקי ברבעון השלישי מניות הבנקים עלו צה"ל דו"ח חו"ל ארה"ב ח"כ ההסכם נחתם').split()
ARABIC_NEWS = ('قال وزير الخارجية في مؤتمر صحفي إن المفاوضات بين الطرفين ستستمر خلال الأسبوع المقبل وأكد المتحدث باسم '
               'الحكومة أن القرار سيدخل حيز التنفيذ المدينة كتاب جديد طريق الناس يوم سنة شركة').split()
ENGLISH_NEWS = ('the report said that a new release of the library will be out next week and users should update their '
                'copies before then or wait').split()
NAMES = 'Anna Cohen|دانا أحمد|משה לוי|Peter Smith|فاطمة علي|רחל מזרחי|José García|Zoë O’Neil|خالد|דוד'.split('|')
EMOJI = '😂 ❤️ 👍🏽 👨\u200d👩\u200d👧\u200d👦 👩🏾\u200d💻 🏳️\u200d🌈 🤷🏻\u200d♀️ 🙏🏿 🔥 🎉'.split()

HEBREW_20 = 'ספרים רבים (2) נכתבו'
MIXED_20 = 'a paper (אבן) 12 בית'

ZWJ = '\u200d'
RLE, PDF, RLO = '\u202b', '\u202c', '\u202e'
LRI, RLI, FSI, PDI = '\u2066', '\u2067', '\u2068', '\u2069'
BOTH_DIRECTIONS = 'a\u05d0'


def filled(length, part):
    """Returns the part over and over, cut to a length."""
    return (part * (length // len(part) + 1))[:length]


def phrase(chance):
    """Returns some words of one language, often with brackets or a number, and what follows them."""
    pick = chance.random()
    words = HEBREW if pick < .35 else ARABIC if pick < .68 else LATIN
    text = ' '.join(chance.choice(words) for _ in range(chance.randint(1, 5)))
    pick = chance.random()
    if pick < .13:
        text = '(' + text + ')'
    elif pick < .17:
        text = '[' + text + ' {' + chance.choice(LATIN) + '}]'
    elif pick < .30:
        text += ' %d' % chance.randint(1, 99999)
    elif pick < .36:
        text += ' ' + ''.join(chr(0x660 + chance.randint(0, 9)) for _ in range(3))
    elif pick < .40:
        text += ' %d.%02d$' % (chance.randint(1, 999), chance.randint(0, 99))
    return text + chance.choice([' ', ' ', ', ', '. ', ' - '])


def written(length, kind, seed=11):
    """Returns parts of this kind, cut to a length; the same ones on every run."""
    chance = random.Random(seed)
    parts, count = [], 0
    while count < length:
        parts.append(kind(chance))
        count += len(parts[-1])
    return ''.join(parts)[:length]


def mixed(length):
    """Returns phrases of three languages, cut to a length."""
    return written(length, phrase, 7)


def some_words(chance, words, least, most):
    """Returns a number of words in this range."""
    return ' '.join(chance.choice(words) for _ in range(chance.randint(least, most)))


def news(chance):
    """Returns a sentence of a Hebrew newspaper: with quotation marks, dates, percentages or an English name."""
    pick = chance.random()
    text = some_words(chance, HEBREW_NEWS, 5, 14)
    if pick < .25:
        text = '"' + text + '", אמר ' + some_words(chance, HEBREW_NEWS, 2, 4)
    elif pick < .45:
        text += ' ב-%d.%d.%d' % (chance.randint(1, 28), chance.randint(1, 12), chance.randint(1990, 2026))
    elif pick < .6:
        text += ' כ-%d.%d%% ל-%d,%03d ש"ח' % tuple(chance.randint(1, 99) for _ in range(4))
    elif pick < .78:
        text += ' (' + some_words(chance, ENGLISH_NEWS, 1, 3) + ')'
    return text + chance.choice(['. ', '. ', ', ', ': '])


def chat(chance):
    """Returns a message in one of three languages, mostly with emoji."""
    words = chance.choice([HEBREW_NEWS, ARABIC_NEWS, ENGLISH_NEWS, ENGLISH_NEWS])
    text = some_words(chance, words, 2, 9)
    if chance.random() < .7:
        text += ' ' + chance.choice(EMOJI)
    if chance.random() < .15:
        text += ' @' + chance.choice(['dana', 'mo_ali', 'kobi99'])
    return text + chance.choice(['! ', '? ', '... ', ' ', ' haha '])


def csv_row(chance):
    """Returns a row of names, telephone numbers, dates, amounts and remarks."""
    words = chance.choice([HEBREW_NEWS, ARABIC_NEWS, ENGLISH_NEWS])
    return '%s,+972-%d-%03d-%04d,%04d-%02d-%02d,%d.%02d,"%s" ' % (
        chance.choice(NAMES), chance.randint(2, 58), chance.randint(0, 999), chance.randint(0, 9999),
        chance.randint(1990, 2026), chance.randint(1, 12), chance.randint(1, 28), chance.randint(0, 9999),
        chance.randint(0, 99), some_words(chance, words, 1, 3))


def with_url(chance):
    """Returns an Arabic sentence with a URL."""
    url = 'https://www.%s.%s/%s?id=%d&lang=ar#s%d' % (
        chance.choice(['example', 'news-site']), chance.choice(['com', 'org']),
        '/'.join(chance.choice(['a', 'wiki', 'p2', 'index.html']) for _ in range(chance.randint(1, 4))),
        chance.randint(1, 99999), chance.randint(1, 9))
    return some_words(chance, ARABIC_NEWS, 3, 10) + ' ' + url + chance.choice(['، ', '. ', ' '])


def html(chance):
    """Returns an item of a list in HTML, whose names are in isolates."""
    words = chance.choice([HEBREW_NEWS, ARABIC_NEWS, ENGLISH_NEWS])
    return '<li class="u%d"><b>%s</b>: %s <i>%s</i></li> ' % (
        chance.randint(1, 99), LRI + chance.choice(NAMES) + PDI, some_words(chance, words, 2, 7),
        LRI + chance.choice(NAMES) + PDI)


def written_texts():
    """Returns the names and texts of kinds that people write, and files of short ones."""
    chance = random.Random(13)
    english = filled(1000, ENGLISH)
    kinds = {'news': news, 'chat': chat, 'csv': csv_row, 'urls': with_url, 'html': html}
    texts = {name: written(1000, kind) for name, kind in kinds.items()}
    texts['english_zwj'] = english[:499] + ZWJ + english[499:]
    texts['english_fsi'] = english[:499] + FSI + 'abc' + PDI + english[499:]
    texts['words'] = '\n'.join(chance.choice(HEBREW_NEWS + ARABIC_NEWS + ENGLISH_NEWS) for _ in range(200))
    texts['lines'] = '\n'.join(
        ''.join(chance.choice([news, chat, with_url])(chance) for _ in range(4))[:chance.randint(20, 60)]
        for _ in range(25))
    texts['english_1e6'] = filled(10**6, ENGLISH)
    texts.update({name + '_1e6': written(10**6, kinds[name]) for name in ('news', 'html')})
    return texts


def with_pairs(text, period, opening, closing):
    """Returns the text with a pair of controls around half of each stretch of so many characters."""
    after = {9: opening, 9 + period // 2: closing}
    return ''.join(c + after.get(at % period, '') for at, c in enumerate(text))


def ordinary_texts():
    """Returns the names and texts of ordinary kinds."""
    text = mixed(1000)
    return {
        'english': filled(1000, ENGLISH),
        'hebrew': filled(1000, HEBREW_TEXT),
        'vowels': filled(1000, HEBREW_WITH_VOWELS),
        'mixed': text,
        'zwj': text[:499] + ZWJ + text[499:],
        'persian': filled(1000, PERSIAN),
        'isolates': with_pairs(text, 40, FSI, PDI),
        'embeddings': with_pairs(text, 60, RLE, PDF),
        'arabic': filled(1000, ARABIC_TEXT),
        'digits': filled(1000, '3.14 + 15,926 = -5.358 '),
        'segments': filled(1000, 'a\tא\t1\t'),
        'overrides': with_pairs(text, 60, RLO, PDF),
        'code': filled(1000, CODE),
        'alternating': filled(1000, BOTH_DIRECTIONS),
        'mixed_10000': mixed(10000),
        'english_20': ENGLISH[:20],
        'hebrew_20': HEBREW_20,
        'mixed_20': MIXED_20,
        'one_latin': 'a',
        'one_hebrew': '\u05d0',
    }


def hostile_texts(length):
    """Returns the names and texts of about so many characters that are hard to lay out in linear time."""
    half = length // 2
    return {
        'fsi': BOTH_DIRECTIONS + FSI * length,
        'rli': RLI * (length - 1) + 'a',
        'isolated': filled(length, BOTH_DIRECTIONS + RLI + 'a' + PDI),
        'ladder': filled(length, (RLI + LRI) * 62 + 'a' + PDI * 124),
        'nested': BOTH_DIRECTIONS + '(' * half + ')' * half,
        'around': BOTH_DIRECTIONS + '(' * 62 + ' ' * length + ')' * 62,
        'pairs': filled(length, 'a(\u05d0)'),
        'unmatched': BOTH_DIRECTIONS + '(' * half + ']' * half,
        'alternating': filled(length, BOTH_DIRECTIONS),
    }


def main():
    if len(sys.argv) != 2:
        sys.exit(__doc__)
    folder = sys.argv[1]
    texts = {**ordinary_texts(), **written_texts()}
    for suffix, length in (('1e4', 10**4), ('1e6', 10**6)):
        for name, text in hostile_texts(length).items():
            texts[f'{name}_{suffix}'] = text
    os.makedirs(folder, exist_ok=True)
    for name, text in texts.items():
        with open(os.path.join(folder, name + '.txt'), 'w', encoding='utf-8', newline='') as file:
            file.write(text)


main()
