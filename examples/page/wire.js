// The network as it is seen: packets on their way, and how much they carry.
import { $, colours, game } from "./game.js";

const wire = $("wire"), pen = wire.getContext("2d");
export function drawWire(now) {
    const ratio = Math.min(devicePixelRatio || 1, 2), box = wire.getBoundingClientRect(), wide = box.width, tall = box.height;
    if (wire.width !== Math.round(wide * ratio)) {
        wire.width = Math.round(wide * ratio);
        wire.height = Math.round(tall * ratio);
    }
    pen.setTransform(ratio, 0, 0, ratio, 0, 0);
    pen.clearRect(0, 0, wide, tall);
    const ends = [14, wide - 14], lane = [tall / 2 - 6, tall / 2 + 6], style = getComputedStyle(document.documentElement);
    pen.lineWidth = 1.5;
    pen.strokeStyle = style.getPropertyValue("--line");
    for (const y of lane) {
        pen.beginPath();
        pen.moveTo(ends[0], y);
        pen.lineTo(ends[1], y);
        pen.stroke();
    }
    for (const it of game.network.flying) {
        const part = (now - it.sent) / Math.max(1, it.due - it.sent), gone = it.lost ? Math.max(0, (part - 0.45) / 0.4) : 0;
        if (gone >= 1 || part < 0) continue;
        const s = it.lost ? Math.min(part, 0.45 + (part - 0.45) * 0.5) : part;
        const x = ends[it.from] + (ends[1 - it.from] - ends[it.from]) * s;
        pen.globalAlpha = 1 - gone;
        pen.fillStyle = gone > 0 ? style.getPropertyValue("--bad") : it.from ? colours.css.two : colours.css.one;
        pen.beginPath();
        pen.arc(x, lane[it.from] + gone * gone * 12, 3.6, 0, 7);
        pen.fill();
        pen.globalAlpha = 1;
    }
    ends.forEach((x, id) => {
        pen.fillStyle = id ? colours.css.two : colours.css.one;
        pen.beginPath();
        pen.arc(x, tall / 2, 12, 0, 7);
        pen.fill();
        pen.fillStyle = colours.css.disc;
        pen.font = "700 13px system-ui, sans-serif";
        pen.textAlign = "center";
        pen.textBaseline = "middle";
        pen.fillText(String(id + 1), x, tall / 2 + 0.5);
    });
}

// What the network carried, and how many frames were drawn, in the last second.
let mark = null, frames = 0, since = performance.now();
export function traffic(now) {
    const real = performance.now(), { network } = game;
    frames++;
    // (a network that is new carried nothing before)
    if (mark?.network !== network) mark = { network, at: now - 1000, bytes: 0 };
    if (now - mark.at < 1000 || real - since < 1000) return;
    const rate = ((network.bytes - mark.bytes) / (now - mark.at) / 1.024).toFixed(1), drawn = frames * 1000 / (real - since);
    $("traffic").textContent = `${rate} KB/s both ways · ${network.lost} of ${network.sent} lost · ${drawn.toFixed(drawn < 9.5 ? 1 : 0)} frames/s`;
    mark = { network, at: now, bytes: network.bytes };
    frames = 0;
    since = real;
}
