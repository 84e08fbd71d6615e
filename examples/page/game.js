// What the parts of the page share: what the address asks for, the clock, the network and the colours.
import { Network } from "./network.js";
import { STEPS } from "./scene.js";

const query = new URLSearchParams(location.search);
const seed = query.has("auto") ? Number(query.get("auto")) >>> 0 : null;

export const $ = id => document.getElementById(id);
export const tool = () => document.querySelector("input[name=tool]:checked").value;

// With `?auto=SEED` two automatic players play `turns` turns by a clock of their own, as fast as they can with `fast`.
export const game = {
    query, seed, turns: Number(query.get("turns") ?? 600),
    network: new Network(1),
    clock: 0,           // milliseconds of play
    ahead: 0,           // steps that should be played by now
    touched: false,     // whether a pointer went down on a cloth, or Space was pressed there
    paused: false,      // whether a session is shown that goes on at a touch
};
game.limit = seed === null ? Infinity : game.turns * STEPS;

const rgb = hex => [1, 3, 5].map(k => parseInt(hex.slice(k, k + 2), 16) / 255);
const palettes = {
    light: {
        sky: "#f3efe7", ground: "#e9e2d5", ball: "#efe9df", front: "#e0523c", back: "#b03a48", thread: "#fff1dd",
        one: "#2b7fff", two: "#9b51e0", pin: "#3a3f4a", disc: "#fff", dark: 0,
    },
    dark: {
        sky: "#181c23", ground: "#333a47", ball: "#a3aebd", front: "#e2553f", back: "#9c3245", thread: "#ffe6c7",
        one: "#5b9dff", two: "#bd86f0", pin: "#12151b", disc: "#10131a", dark: 1,
    },
};
const dark = matchMedia("(prefers-color-scheme: dark)");
// The colours as the page's style and as shaders want them.
export const colours = { css: null, gl: null };
function recolour() {
    colours.css = palettes[dark.matches ? "dark" : "light"];
    colours.gl = Object.fromEntries(Object.entries(colours.css).map(([k, v]) => [k, /^#.{6}$/.test(v) ? rgb(v) : v]));
}
dark.addEventListener("change", recolour);
recolour();

export function told(text, seen = false) {
    $("told").textContent = text;
    $("told").className = seen ? "seen" : "";
}

export function fail(text) {
    document.title = "failed";
    told("Something went wrong: " + text, true);
    console.error(text);
}
