"""Texts: the library's reply 0 and the browsers' CSS.supports, and the differences that are explained."""
from shared import differences


def said(reply, answers):
    """The browsers that differ from the library, and their word; None if all agree with it."""
    others = [name for name, accepts in answers.items() if accepts != (reply == 0)]
    verb = ("refuse" if reply == 0 else "accept") + "s" * (len(others) == 1)
    return f"{' and '.join(others)} {verb}" if others else None


def compare(texts, replies, seen):
    explained, faults = {}, []
    for text, given in differences():
        if text in explained:
            faults.append(f"differences.txt has it twice: {text}")
        explained[text] = given
    accepted = {name: set(facts["accepts"]) for name, (facts, _) in seen.items()}
    agree = 0
    for text, reply in zip(texts, replies):
        found = said(reply, {name: text in accepted[name] for name in seen})
        given = explained.pop(text, None)
        agree += found is None
        if found is None and given:
            faults.append(f"differences.txt explains what is no difference: {text}")
        elif found and not given:
            faults.append(f"{found}, the library has reply {reply}: {text}")
        elif found and given != (found, str(reply)):
            faults.append(f"differences.txt has {given[0]}, reply {given[1]}, not {found}, reply {reply}: {text}")
    faults += [f"differences.txt explains a text that is not in texts.txt: {text}" for text in explained]
    taken = replies.count(0)
    print(f"\n{len(texts)} texts, {taken} of them taken by the library: {agree} judged alike, {len(texts) - agree} differences")
    return faults
