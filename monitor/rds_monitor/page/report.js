"use strict";
// Draws the charts of the page from its data, by D3 version 3. Texts of stations are only ever shown as text.
(function () {
  const stations = JSON.parse(document.getElementById("data").textContent);
  const MARGIN = {left: 62, right: 10}, COLUMN = 2, ROWS = 200, SHORTEST = 60;
  const PARTS = ["missing", "lost", "corrected"];
  // Group types with a colour of their own: most others come from wrong corrections.
  const TYPES = 12, OTHER = "other";
  const SPANS = {minute: 60, hour: 3600, day: 86400};
  // The lanes of a chart from top to bottom, by their heights.
  const BLOCKS = 170, BAR = 20, MIX = 60, ITEM = 15, CLOCK = 50, AXIS = 22;

  // The numbers of a column, one, two or four bytes each.
  function numbers(text, bytes) {
    const raw = Uint8Array.from(atob(text), (sign) => sign.charCodeAt(0));
    return bytes === "1" ? raw : bytes === "2" ? new Uint16Array(raw.buffer) : new Uint32Array(raw.buffer);
  }

  function cell(row, text, kind = "") {
    const made = document.createElement("td"), inside = document.createElement("bdi");
    made.className = kind;
    inside.textContent = text;
    made.appendChild(inside);
    row.appendChild(made);
  }

  class Chart {
    constructor(article) {
      this.article = article;
      this.station = stations[article.dataset.station];
      this.sessions = this.station.sessions;
      this.from = this.sessions[0][0];
      this.to = Math.max(this.station.end, this.from + SHORTEST);
      for (const it of this.station.parts)
        for (const name of ["sent", ...PARTS]) it[name] = numbers(it[name], it.bytes);
      this.types = this.commonTypes();
      this.lanes = this.station.lanes.map(([name, stretches]) => ({name, stretches}));
      const colours = d3.scale.category20().domain(this.types.filter((it) => it !== OTHER));
      this.colour = (type) => type === OTHER ? "#888" : colours(type);
      this.nameTypes();
      this.place();
      this.listen();
      this.show(this.from, this.to);
    }

    // The group types that are counted most, in order of name, and `other` for the rest, if there is one.
    commonTypes() {
      const sums = new Map();
      for (const [, , counts] of this.station.mix)
        for (const type in counts) sums.set(type, (sums.get(type) || 0) + counts[type]);
      const sorted = [...sums.keys()].sort((one, two) => sums.get(two) - sums.get(one)), most = sorted.slice(0, TYPES).sort();
      if (sorted.length <= TYPES) return most;
      for (const it of this.station.mix) {
        const told = {[OTHER]: 0};
        for (const type in it[2]) told[most.includes(type) ? type : OTHER] = it[2][type] + (most.includes(type) ? 0 : told[OTHER]);
        it[2] = told;
      }
      return [...most, OTHER];
    }

    nameTypes() {
      const into = d3.select(this.article.querySelector(".types"));
      for (const type of this.types) {
        const one = into.append("span");
        one.append("svg").append("rect").attr("width", "100%").attr("height", "100%").attr("fill", this.colour(type));
        one.append("span").text(` ${type} `);
      }
    }

    // Where each lane begins.
    place() {
      let top = BLOCKS + 4;
      const next = (height) => (top += height) - height;
      this.tops = {outages: next(BAR), sessions: next(BAR), mix: next(MIX + 4)};
      for (const lane of this.lanes) lane.top = next(ITEM);
      this.tops.clock = this.station.clock.length ? next(CLOCK + 8) : null;
      this.tops.axis = top;
      this.svg = d3.select(this.article.querySelector(".chart")).append("svg").attr("height", top + AXIS);
    }

    listen() {
      const chart = this.article.querySelector(".chart");
      for (const button of this.article.querySelectorAll("[data-zoom]"))
        button.addEventListener("click", () => this.move(button.dataset.zoom));
      this.article.querySelector("[data-local]").addEventListener("change", () => this.show(this.first, this.last));
      const keys = {"+": "in", "=": "in", "-": "out", ArrowLeft: "left", ArrowRight: "right", Home: "whole"};
      chart.addEventListener("keydown", (event) => {
        if (!keys[event.key] || event.ctrlKey || event.metaKey || event.altKey) return;
        event.preventDefault();
        this.move(keys[event.key]);
      });
      chart.addEventListener("wheel", (event) => {
        event.preventDefault();
        const at = this.x.invert(event.clientX - chart.getBoundingClientRect().left);
        this.scale(event.deltaY < 0 ? 0.8 : 1.25, at);
      }, {passive: false});
      window.addEventListener("resize", () => this.show(this.first, this.last));
    }

    move(way) {
      const span = this.last - this.first, middle = (this.first + this.last) / 2;
      if (way === "whole") this.show(this.from, this.to);
      if (way === "in") this.scale(0.5, middle);
      if (way === "out") this.scale(2, middle);
      if (way === "left") this.show(this.first - span / 2, this.last - span / 2);
      if (way === "right") this.show(this.first + span / 2, this.last + span / 2);
      if (SPANS[way]) this.scale(SPANS[way] / span, middle);
    }

    scale(factor, at) {
      const span = Math.min(this.to - this.from, Math.max(SHORTEST, (this.last - this.first) * factor));
      const first = at - (at - this.first) * span / (this.last - this.first);
      this.show(first, first + span);
    }

    // Seconds from here on, kept within the recording.
    show(first, last) {
      const span = Math.min(last - first, this.to - this.from);
      this.first = Math.max(this.from, Math.min(first, this.to - span));
      this.last = this.first + span;
      this.draw();
      this.list();
    }

    time(seconds) {
      if (this.station.start === null) {
        const whole = Math.floor(seconds), two = (number) => String(number).padStart(2, "0");
        return `${two(Math.floor(whole / 3600))}:${two(Math.floor(whole / 60) % 60)}:${two(whole % 60)}`;
      }
      const date = new Date(1000 * (this.station.start + seconds));
      if (this.article.querySelector("[data-local]").checked) return date.toLocaleString();
      return date.toISOString().slice(0, 19).replace("T", " ") + "Z";
    }

    // The same for the axis: without the date, or the second, which the line above the chart has.
    tick(seconds) {
      const text = this.time(seconds);
      if (this.station.start === null || this.article.querySelector("[data-local]").checked) return text;
      return this.last - this.first > 2 * 86400 ? text.slice(5, 16) : text.slice(11, 19);
    }

    // The blocks of each column of pixels.
    sums(count) {
      const found = Array.from({length: count}, () => ({sent: 0, missing: 0, lost: 0, corrected: 0}));
      for (const part of this.station.parts) for (let k = 0; k < count; k++) this.addSum(part, found[k], k, count);
      return found;
    }

    addSum(part, sum, k, count) {
      const edge = (n) => Math.floor((this.first + (this.last - this.first) * n / count - part.at) / part.step);
      // An interval longer than a column counts in each that it covers.
      const low = edge(k), high = Math.min(part.sent.length, Math.max(low + 1, edge(k + 1)));
      for (let n = Math.max(0, low); n < high; n++) for (const name in sum) sum[name] += part[name][n];
    }

    draw() {
      const width = Math.max(320, this.article.querySelector(".chart").clientWidth);
      this.x = d3.scale.linear().domain([this.first, this.last]).range([MARGIN.left, width - MARGIN.right]);
      this.svg.selectAll("*").remove();
      const sums = this.sums(Math.floor((width - MARGIN.left - MARGIN.right) / COLUMN));
      this.drawBlocks(sums);
      this.drawShares("session", this.tops.sessions, this.sessions, sums.length);
      this.drawShares("outage", this.tops.outages, this.station.outages, sums.length);
      this.drawMix(sums.length);
      for (const lane of this.lanes) this.drawLane(lane);
      if (this.tops.clock !== null) this.drawClock();
      const axis = d3.svg.axis().scale(this.x).orient("bottom").ticks(Math.min(6, width / 150)).tickFormat((at) => this.tick(at));
      this.svg.append("g").attr("class", "axis").attr("transform", `translate(0,${this.tops.axis})`).call(axis);
      this.tell(sums);
    }

    // One line that says in words what is in view.
    tell(sums) {
      const all = {};
      for (const name of ["sent", ...PARTS]) all[name] = d3.sum(sums, (it) => it[name]);
      const bad = all.sent ? 100 * (all.missing + all.lost + all.corrected) / all.sent : 0;
      this.article.querySelector("output").textContent =
        `${this.time(this.first)} to ${this.time(this.last)}: ${bad.toFixed(2)} % bad blocks`;
    }

    name(text, top) {
      this.svg.append("text").attr("x", 4).attr("y", top).text(text);
    }

    rect(kind, x, y, width, height) {
      return this.svg.append("rect").attr("class", kind).attr("x", x).attr("y", y).attr("width", width).attr("height", height);
    }

    drawBlocks(sums) {
      const y = d3.scale.linear().domain([0, 100]).range([BLOCKS, 6]);
      sums.forEach((sum, k) => {
        if (!sum.sent) return;
        const at = MARGIN.left + k * COLUMN;
        let top = 100;
        this.rect("valid", at, y(100), COLUMN, y(0) - y(100));
        for (const name of PARTS) {
          const share = 100 * sum[name] / sum.sent;
          if (share > 0) this.rect(name, at, y(top), COLUMN, Math.max(1, y(top - share) - y(top)));
          top -= share;
        }
      });
      const axis = d3.svg.axis().scale(y).orient("left").ticks(5).tickFormat((it) => `${it} %`);
      this.svg.append("g").attr("class", "axis").attr("transform", `translate(${MARGIN.left},0)`).call(axis);
    }

    // The share of each column of pixels that times take: as a bar of that height, of one pixel at least. Equal ones in a row are one.
    drawShares(kind, top, spans, count) {
      this.name(`${kind}s`, top + BAR / 2 + 4);
      const shares = new Array(count).fill(0), width = (this.last - this.first) / count;
      for (const [begin, end, seconds] of spans) {
        const low = (begin - this.first) / width, high = Math.max(low, (end - this.first) / width);
        for (let k = Math.max(0, Math.floor(low)); k < count && k <= high; k++) {
          const share = high > low ? (Math.min(k + 1, high) - Math.max(k, low)) / (high - low) : 1;
          shares[k] += share * seconds / width;
        }
      }
      const height = (k) => shares[k] > 0 ? Math.max(1, Math.round(Math.min(1, shares[k]) * (BAR - 4))) : 0;
      for (let from = 0, k = 0; from < count; from = k) {
        const high = height(from);
        while (k < count && height(k) === high) k++;
        if (!high) continue;
        const times = `from ${this.time(this.first + from * width)} to ${this.time(this.first + k * width)}`;
        this.rect(kind, MARGIN.left + from * COLUMN, top + BAR - 2 - high, (k - from) * COLUMN, high).append("title").text(
          `${kind}s ${times}: ${(100 * d3.mean(shares.slice(from, k))).toFixed(1)} %`);
      }
    }

    drawMix(count) {
      this.name("groups", this.tops.mix + MIX / 2);
      const seen = this.station.mix.filter(([begin, end]) => end > this.first && begin < this.last);
      const every = Math.max(1, Math.ceil(seen.length / count));
      for (let k = 0; k < seen.length; k += every) {
        const part = seen.slice(k, k + every), left = this.x(Math.max(part[0][0], this.first));
        const right = this.x(Math.min(part[part.length - 1][1], this.last));
        const counts = this.types.map((type) => d3.sum(part, ([, , it]) => it[type] || 0)), all = d3.sum(counts);
        let top = this.tops.mix;
        counts.forEach((number, at) => {
          const height = all ? MIX * number / all : 0;
          if (height) this.rect("mix", left, top, Math.max(1, right - left), height).attr("fill", this.colour(this.types[at])).append(
            "title").text(`${this.types[at]}: ${number} groups from ${this.time(part[0][0])}`);
          top += height;
        });
      }
    }

    // What an item said from when to when: as a text as far as it fits, and whole in its title.
    drawLane(lane) {
      this.name(lane.name, lane.top + ITEM - 4);
      let edge = -1, drawn = 0;
      for (const [from, to, number] of lane.stretches) {
        const text = this.station.texts[number];
        if (to < this.first || from > this.last) continue;
        const low = this.x(Math.max(from, this.first)), high = Math.max(low + 1, this.x(Math.min(to, this.last)));
        // Of those within one pixel the first is drawn.
        if (high <= edge + 1) continue;
        edge = high;
        const kind = drawn++ % 2 ? "item odd" : "item", fits = Math.floor((high - low - 4) / 6.5);
        this.rect(kind, low, lane.top + 1, high - low, ITEM - 2).append("title").text(`${lane.name} from ${this.time(from)}: ${text}`);
        if (fits > 2) this.svg.append("text").attr("class", "held").attr("x", low + 3).attr("y", lane.top + ITEM - 4).text(text.slice(0, fits));
      }
    }

    // The station's clock less that of the recording.
    drawClock() {
      const seen = this.station.clock.filter(([at]) => at >= this.first && at <= this.last), top = this.tops.clock + 4;
      if (!seen.length) return;
      const [low, high] = d3.extent(seen, (it) => it[1]), room = Math.max(0.1, 0.1 * (high - low));
      const y = d3.scale.linear().domain([low - room, high + room]).range([top + CLOCK, top]);
      const line = d3.svg.line().x((it) => this.x(it[0])).y((it) => y(it[1]));
      this.svg.append("g").attr("class", "clock").append("path").attr("d", line(seen)).append("title").text(
        `the station's clock less that of the recording: ${low} s to ${high} s`);
      const axis = d3.svg.axis().scale(y).orient("left").ticks(3).tickFormat((it) => `${+it.toPrecision(6)} s`);
      this.svg.append("g").attr("class", "axis").attr("transform", `translate(${MARGIN.left},0)`).call(axis);
      this.svg.append("text").attr("x", MARGIN.left + 6).attr("y", top + 10).text("station's clock, less that of the recording");
    }

    // The rows of the tables, as far as they are in view.
    list() {
      const fill = (name, rows) => {
        const body = this.article.querySelector(`.${name} tbody`);
        body.textContent = "";
        for (const texts of rows.slice(0, ROWS)) {
          const row = document.createElement("tr");
          texts.forEach((text, at) => cell(row, text, name === "events" && at > 1 ? "text" : ""));
          body.appendChild(row);
        }
        if (rows.length > ROWS) cell(body.appendChild(document.createElement("tr")), `${rows.length - ROWS} more: zoom in`);
      };
      const inside = (begin, end) => end >= this.first && begin <= this.last;
      const {events, more, outages, texts} = this.station;
      const times = (rows) => rows.filter(([begin, end]) => inside(begin, end)).map(
        ([begin, end, seconds, ...counts]) => [this.time(begin), this.time(end), seconds.toFixed(3), ...counts.map(Math.round)]);
      fill("sessions", times(this.sessions));
      fill("outages", times(outages));
      fill("events", events.filter(([at]) => inside(at, at)).map(([at, item, text]) => [this.time(at), item, texts[text]]));
      if (more) cell(this.article.querySelector(".events tbody").appendChild(document.createElement("tr")), `${more} more are not on this page`);
    }
  }

  for (const article of document.querySelectorAll("article")) if (stations[article.dataset.station].sessions.length) new Chart(article);
}());
