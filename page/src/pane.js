// A pane of rows.

const MOST_HEIGHT = 6000000;

// A pane whose rows are made as they come into view. Past a height that browsers take, the scroll
// bar stands for places among the rows, and not for pixels. `draw` makes a row, and `fitted` is
// called when there are more or fewer.
export class Pane {
  constructor(node, draw, fitted) {
    Object.assign(this, {node, draw, fitted, top: 0, rows: 0, known: -1});
    this.spacer = node.querySelector('.spacer');
    this.body = node.querySelector('.rows');
    node.addEventListener('scroll', () => this.scrolled());
    node.addEventListener('wheel', (event) => this.wheel(event), {passive: false});
    new ResizeObserver(() => this.fit()).observe(node);
  }
  get rowHeight() {
    return parseFloat(getComputedStyle(this.node).getPropertyValue('--row')) || 24;
  }
  get seen() { return this.node.clientHeight / this.rowHeight; }
  get isScaled() { return this.rows * this.rowHeight > MOST_HEIGHT; }
  setRows(rows) {
    this.rows = rows;
    this.fit();
    this.fitted();
  }
  fit() {
    this.spacer.style.height = `${Math.min(this.rows * this.rowHeight, MOST_HEIGHT)}px`;
    this.goTo(Math.max(0, Math.min(this.top, this.rows - this.seen)));
  }
  scrolled() {
    const place = this.node.scrollTop;
    if (Math.abs(place - this.known) > 1) {
      this.known = place;
      const room = this.node.scrollHeight - this.node.clientHeight;
      this.top = this.isScaled ? place / room * (this.rows - this.seen) : place / this.rowHeight;
    }
    this.paint();
  }
  wheel(event) {
    if (!this.isScaled || event.ctrlKey || !event.deltaY) return;
    event.preventDefault();
    const step = event.deltaMode === 1 ? 1 : 1 / this.rowHeight;
    this.goTo(Math.max(0, Math.min(this.top + event.deltaY * step, this.rows - this.seen)));
  }
  goTo(top) {
    this.top = top;
    const room = this.node.scrollHeight - this.node.clientHeight;
    const place = this.isScaled ? top / (this.rows - this.seen) * room : top * this.rowHeight;
    this.known = place;
    this.node.scrollTop = place;
    this.paint();
  }
  show(row) {
    if (row < this.top + 0.5)
      this.goTo(Math.max(0, row - (row < this.top - 1 ? this.seen / 3 : 0)));
    else if (row + 1.5 > this.top + this.seen) {
      const far = row > this.top + this.seen + 1 ? this.seen / 3 : 0;
      this.goTo(Math.max(0, Math.min(row + 1.5 - this.seen + far, this.rows - this.seen)));
    }
  }
  paint() {
    const first = Math.floor(this.top), parts = [];
    const last = Math.min(this.rows, first + Math.ceil(this.seen) + 1);
    for (let row = first; row < last; row++) parts.push(this.draw(row));
    this.body.replaceChildren(...parts);
    this.body.style.transform =
      `translateY(${this.node.scrollTop - (this.top - first) * this.rowHeight}px)`;
  }
}
