"""The colours of picture and page, for light and for dark. Shapes and numbers tell things apart; colour only helps."""

import colorsys

LIGHT = {"ink": "#1c2430", "paper": "#ffffff", "quiet": "#5f6b76", "faint": "#b7c0c9", "ghost": "#e8ebee", "chip": "#eef1f4", "loss": "#b0123a"}
DARK = {"ink": "#e4e9ee", "paper": "#15191e", "quiet": "#9aa7b3", "faint": "#4d5863", "ghost": "#262d35", "chip": "#28303a", "loss": "#ff7a93"}

LEAST_CONTRAST = 4.6  # 4.5 is asked of letters

# the first rounds, told apart by most eyes; red is kept for what is lost
FIRST = {"light": ("#1b66a8", "#9a5b00", "#7f3f98", "#00756b", "#b03a8c", "#5d6c00", "#3a3fb0", "#7d4a35"),
         "dark": ("#6cb3f0", "#e5a94b", "#c792e0", "#4cc9bb", "#f08fd0", "#b9cb4f", "#9aa0ff", "#d9a48d")}


def of_rounds(count, theme):
    """As many colours as there are rounds, no two the same."""
    return [FIRST[theme][i] if i < len(FIRST[theme]) else further(i, theme) for i in range(count)]


def further(i, theme):
    """Hues a golden angle apart, away from red, in three depths, each as strong as letters on this paper need."""
    hue, depth = (0.07 + 0.86 * (i * 0.618034 % 1)) % 1, i % 3
    lightness, step = (0.41 - 0.07 * depth, -0.01) if theme == "light" else (0.62 + 0.08 * depth, 0.01)
    paper = (LIGHT if theme == "light" else DARK)["paper"]
    while contrast(written(hue, lightness), paper) < LEAST_CONTRAST:
        lightness += step
    return written(hue, lightness)


def written(hue, lightness):
    return "#" + "".join(f"{round(255 * part):02x}" for part in colorsys.hls_to_rgb(hue, lightness, 0.62))


def contrast(one, other):
    """The common measure of how well letters of one colour are read on another."""
    bright, dark = sorted((luminance(one), luminance(other)), reverse=True)
    return (bright + 0.05) / (dark + 0.05)


def luminance(colour):
    parts = (int(colour[i:i + 2], 16) / 255 for i in (1, 3, 5))
    return sum(share * (part / 12.92 if part <= 0.03928 else ((part + 0.055) / 1.055) ** 2.4) for share, part in zip((0.2126, 0.7152, 0.0722), parts))
