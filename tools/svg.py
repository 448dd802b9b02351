"""Elements of a picture (SVG) as text."""

from html import escape


def px(value):
    return f"{value:.1f}".removesuffix(".0")


def tag(name, attributes, text="", inside=()):
    """One element: its attributes by name (with 'cls' for class and '_' for '-'), and its text or what is inside it."""
    head = name
    for key, value in attributes.items():
        value = px(value) if isinstance(value, float) else escape(str(value), quote=False).replace('"', "&quot;")
        head += f' {key.replace("cls", "class").replace("_", "-")}="{value}"'
    content = escape(text, quote=False) + "".join(inside)
    return f"<{head}>{content}</{name}>" if content else f"<{head}/>"
