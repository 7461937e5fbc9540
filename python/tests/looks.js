// What a reader sees of a page that is so many pixels wide: each text with its size, its colours and where it stands; texts
// that lie on one another; and texts that reach beyond their boxes. What is folded isn't seen.
(pixels => {
  const seen = 'h1, h2, h3, p, dt, dd, th, td, li, pre, summary, figcaption, caption, .sign, .canvas, svg.spark'

  const colour = text => {
    const [red, green, blue, alpha] = text.match(/[\d.]+/g).map(Number)
    return alpha === 0 ? '' : '#' + [red, green, blue].map(part => part.toString(16).padStart(2, '0')).join('')
  }
  const ground = each => each ? colour(getComputedStyle(each).backgroundColor) || ground(each.parentElement) : '#ffffff'

  const isVisible = each => {
    const box = each.getBoundingClientRect(), head = each.closest('thead')
    const isHidden = head && getComputedStyle(head).position === 'absolute'
    return box.width > 1 && box.height > 1 && !isHidden && each.checkVisibility({ checkVisibilityCSS: true })
  }
  // Its own text: what stands in another element that is seen is that one's.
  const textOf = node => {
    if (node.nodeType === Node.TEXT_NODE) return node.nodeValue
    if (node.nodeType !== Node.ELEMENT_NODE || node.matches('svg, script, style')) return ''
    if (node.matches('br')) return ' '
    return [...node.childNodes].map(child => child.nodeType === Node.ELEMENT_NODE && child.matches(seen) ? ' ' : textOf(child)).join('')
  }
  const before = each => {
    const text = getComputedStyle(each, '::before').content
    return text.startsWith('"') ? JSON.parse(text) + ': ' : ''
  }
  const words = each => (before(each) + textOf(each)).split(/\s+/).filter(Boolean).join(' ')
  const kind = each => [each.localName, ...each.classList].join('.')

  const found = [...document.querySelectorAll(seen)].filter(isVisible).map(each => {
    // a legend's items follow one another as a text's words do: their list has a place
    const style = getComputedStyle(each), box = (each.closest('ul.legend') || each).getBoundingClientRect()
    const sides = [box.left, box.right].map(side => Math.round(1000 * side / pixels) / 10)
    return {
      kind: kind(each), size: Math.round(10 * parseFloat(style.fontSize)) / 10, weight: style.fontWeight,
      ink: colour(style.color), ground: ground(each), sides, text: words(each),
    }
  })

  const overlap = (one, other) => Math.min(one.right, other.right) - Math.max(one.left, other.left) > 1 &&
    Math.min(one.bottom, other.bottom) - Math.max(one.top, other.top) > 1
  const onOneAnother = [...document.querySelectorAll('tr')].filter(isVisible).flatMap(row => {
    const cells = [...row.cells].filter(isVisible)
    const boxes = cells.map(cell => cell.getBoundingClientRect())
    return cells.filter((cell, place) => boxes.some((box, other) => other < place && overlap(box, boxes[place]))).map(words)
  })
  const beyond = [...document.querySelectorAll(seen)].filter(isVisible)
    .filter(each => !each.matches('.canvas, svg') && each.scrollWidth > each.clientWidth + 1 && each.clientWidth > 0).map(words)
  return { found, onOneAnother, beyond, drawn: document.querySelectorAll('svg.plant g.edge').length }
})
