// The least contrast between a text of the page and what lies behind it, as WCAG 2 counts it: 4.5 is the least that is well.
(() => {
    const parts = (color) => color.match(/[\d.]+/g).map(Number);
    const linear = (part) => (part <= 0.04045 * 255 ? part / 255 / 12.92 : ((part / 255 + 0.055) / 1.055) ** 2.4);
    const luminance = ([red, green, blue]) => 0.2126 * linear(red) + 0.7152 * linear(green) + 0.0722 * linear(blue);
    const behind = (element) => {
        const color = parts(getComputedStyle(element).backgroundColor);
        return color.length === 4 && color[3] === 0 ? behind(element.parentElement) : color;
    };
    const hasText = (element) => [...element.childNodes].some((node) => node.nodeType === Node.TEXT_NODE && node.data.trim());
    const isSeen = (element) => element.checkVisibility() && element.id !== "said";
    let least = 21;
    for (const element of document.querySelectorAll("main *")) {
        if (!isSeen(element) || !(hasText(element) || element.value)) continue;
        const { color, fill } = getComputedStyle(element);
        const text = parts(element.closest("svg") ? fill : color);
        const [dark, light] = [text, behind(element)].map(luminance).sort((one, other) => one - other);
        least = Math.min(least, (light + 0.05) / (dark + 0.05));
    }
    return least;
})();
