"""What every picture must be: well-formed XML, all in bounds, nothing from elsewhere, and no lane
in another."""
import re
import xml.etree.ElementTree as xml

SVG = "{http://www.w3.org/2000/svg}"


def numbers(part, *names):
    return [float(part.get(name)) for name in names]


def in_bounds(top, part, wrong):
    width, height = (float(word) for word in top.get("viewBox").split()[2:])
    if part.tag == f"{SVG}rect" and part.get("x"):
        x, y, wide, high = numbers(part, "x", "y", "width", "height")
        if x < 0 or y < 0 or x + wide > width or y + high > height or wide <= 0 or high <= 0:
            wrong.append(f"out of bounds: {part.attrib}")
    if part.tag == f"{SVG}text":
        x, y = numbers(part, "x", "y")
        if not (0 <= x <= width and 12 <= y <= height):
            wrong.append(f"out of bounds: {part.attrib}")
    if part.tag == f"{SVG}path":
        x, y = (float(n) for n in re.match(r"M([\d.]+) ([\d.]+)l", part.get("d")).groups())
        if not (0 <= x <= width - 7 and 0 <= y <= height - 10):
            wrong.append(f"out of bounds: {part.attrib}")


def lanes_hold(lanes, bars, wrong):
    """Each bar is in one lane, and no lane runs into the next."""
    spans = sorted(
        (float(lane.get("y")), float(lane.get("y")) + float(lane.get("height"))) for lane in lanes
    )
    for (_, end), (begin, _) in zip(spans, spans[1:]):
        if end > begin:
            wrong.append(f"a lane ends at {end} below {begin}")
    for bar in bars:
        y, high = numbers(bar, "y", "height")
        if not any(begin <= y and y + high <= end for begin, end in spans):
            wrong.append(f"a bar in no lane: {bar.attrib}")


def read(text, wrong):
    """The picture, or none where it is no XML; what is wrong with it so far is told."""
    try:
        top = xml.fromstring(text)
    except xml.ParseError as fault:
        wrong.append(f"no XML: {fault}: {text[:100]}")
        return None
    wrong += [
        f"from elsewhere: {word}"
        for word in ("href", "@import", "<script", "@font-face")
        if word in text
    ]
    for part in top.iter():
        in_bounds(top, part, wrong)
    return top


def bars_of(top, wrong):
    """The bars of a picture with lanes, each with a title and in one lane."""
    bars = top.findall(f".//{SVG}g[@id='bars']/{SVG}rect")
    lanes = [rect for rect in top.iter(f"{SVG}rect") if rect.get("class") == "lane"]
    wrong += [f"no title: {bar.attrib}" for bar in bars if bar.find(f"{SVG}title") is None]
    lanes_hold(lanes, bars, wrong)
    return bars
