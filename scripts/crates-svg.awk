# Draws the graph of crates: awk -f scripts/crates-svg.awk crates.txt > docs/crates.svg
# Each crate stands over those that it uses. A line that follows from others is left out: where a uses b and b uses c, none goes from a to c.
# A word behind a crate's name, as staticlib, is not drawn.
# Libraries of the kit have a dashed frame. All numbers in the output are whole, so that every awk writes the same bytes.

BEGIN {
    box_width = 100; box_height = 28; gap = 22; rank_height = 68; margin = 24; bend_width = 10
}
{ sub(/#.*/, "") }
/:/ {
    colon = index($0, ":")
    split(substr($0, 1, colon - 1), parts, " ")
    name = parts[1]
    names[++crates] = name
    is_crate[name] = 1
    used = split(substr($0, colon + 1), parts, " ")
    for (n = 1; n <= used; n++) uses[name, ++use_count[name]] = parts[n]
}
END {
    add_libraries()
    for (n = 1; n <= boxes; n++) set_rank(n)
    add_lines()
    for (sweep = 1; sweep <= 24; sweep++) order_ranks(sweep % 2)
    for (rank = 0; rank <= top; rank++) place_in_row(rank)
    for (sweep = 1; sweep <= 60; sweep++) place_ranks(sweep % 2)
    draw()
}

# The crates are nodes 1 to crates, in the order of the file; then come the kit's libraries that they use.
function add_libraries(    n, k, name) {
    count = crates
    for (n = 1; n <= crates; n++) node[names[n]] = n
    for (n = 1; n <= crates; n++)
        for (k = 1; k <= use_count[names[n]]; k++) {
            name = uses[names[n], k]
            if (!(name in node)) {
                names[++count] = name
                node[name] = count
            }
        }
    boxes = count
}

# A crate's rank is one more than the highest of those that it uses: the file has these before it. A library of the kit stands right below the
# lowest crate that uses it.
function set_rank(n,    k, below, m) {
    if (n <= crates) {
        for (k = 1; k <= use_count[names[n]]; k++) {
            below = node[uses[names[n], k]]
            if (below <= crates && rank_of[below] + 1 > rank_of[n]) rank_of[n] = rank_of[below] + 1
        }
        rank_of[n] += 0
    } else {
        rank_of[n] = -1
        for (m = 1; m <= crates; m++)
            if (is_used_by(n, m) && (rank_of[n] < 0 || rank_of[m] - 1 < rank_of[n])) rank_of[n] = rank_of[m] > 0 ? rank_of[m] - 1 : 0
    }
    if (rank_of[n] > top) top = rank_of[n]
    join_rank(n)
}

function is_used_by(n, m,    k) {
    for (k = 1; k <= use_count[names[m]]; k++) if (uses[names[m], k] == names[n]) return 1
    return 0
}

function join_rank(n) {
    at[rank_of[n], ++rank_size[rank_of[n]]] = n
    place[n] = rank_size[rank_of[n]]
}

# Is there a way from one name down to another?
function reaches(from, to,    k, way) {
    if (!((from, to) in reached)) {
        way = 0
        for (k = 1; k <= use_count[from] && !way; k++) way = uses[from, k] == to || reaches(uses[from, k], to)
        reached[from, to] = way
    }
    return reached[from, to]
}

# A line for each use that does not follow from another, through a bend on each rank between.
function add_lines(    n, k, m, follows, from) {
    for (n = 1; n <= crates; n++) {
        from = names[n]
        for (k = 1; k <= use_count[from]; k++) {
            follows = 0
            for (m = 1; m <= use_count[from]; m++) if (m != k && reaches(uses[from, m], uses[from, k])) follows = 1
            if (!follows) add_line(n, node[uses[from, k]])
        }
    }
}

function add_line(upper, lower,    rank, last) {
    lines++
    last = upper
    line[lines, ++points[lines]] = upper
    for (rank = rank_of[upper] - 1; rank > rank_of[lower]; rank--) {
        is_bend[++count] = 1
        rank_of[count] = rank
        join_rank(count)
        join(last, count)
        line[lines, ++points[lines]] = last = count
    }
    join(last, lower)
    line[lines, ++points[lines]] = lower
}

function join(upper, lower) {
    down[upper, ++down_count[upper]] = lower
    up[lower, ++up_count[lower]] = upper
}

# The mean of a value over the neighbours above or below; the node's own where there are none.
function mean(value, n, is_up,    k, sum, size) {
    size = is_up ? up_count[n] : down_count[n]
    if (!size) return value[n]
    for (k = 1; k <= size; k++) sum += value[is_up ? up[n, k] : down[n, k]]
    return sum / size
}

# Orders the nodes of each rank by the mean place of their neighbours, so that fewer lines cross.
function order_ranks(is_up,    step, rank, k, m, n, wanted) {
    for (step = 0; step <= top; step++) {
        rank = is_up ? top - step : step
        for (k = 1; k <= rank_size[rank]; k++) wanted[at[rank, k]] = mean(place, at[rank, k], is_up)
        for (k = 2; k <= rank_size[rank]; k++) {
            n = at[rank, k]
            for (m = k - 1; m >= 1 && wanted[at[rank, m]] > wanted[n]; m--) at[rank, m + 1] = at[rank, m]
            at[rank, m + 1] = n
        }
        for (k = 1; k <= rank_size[rank]; k++) place[at[rank, k]] = k
    }
}

function width(n) { return is_bend[n] ? bend_width : box_width }

# How far the middles of two nodes stand apart at least, of which the second is right of the first.
function apart(left, right) { return (width(left) + width(right)) / 2 + gap }

function place_in_row(rank,    k) {
    x[at[rank, 1]] = 0
    for (k = 2; k <= rank_size[rank]; k++) x[at[rank, k]] = x[at[rank, k - 1]] + apart(at[rank, k - 1], at[rank, k])
}

# Moves the nodes of each rank towards their neighbours, and keeps them apart: the mean of a pass from the left and one from the right.
function place_ranks(is_up,    step, rank, k, n, size, from_left, from_right) {
    for (step = 0; step <= top; step++) {
        rank = is_up ? top - step : step
        size = rank_size[rank]
        for (k = 1; k <= size; k++) from_left[k] = from_right[k] = mean(x, at[rank, k], is_up)
        for (k = 2; k <= size; k++) from_left[k] = highest(from_left[k], from_left[k - 1] + apart(at[rank, k - 1], at[rank, k]))
        for (k = size - 1; k >= 1; k--) from_right[k] = -highest(-from_right[k], -from_right[k + 1] + apart(at[rank, k], at[rank, k + 1]))
        for (k = 1; k <= size; k++) x[at[rank, k]] = (from_left[k] + from_right[k]) / 2
    }
}

function highest(a, b) { return a > b ? a : b }
function whole(number) { return int(number + 0.5) }
function x_of(n) { return whole(x[n] - left + margin) }
function y_of(n) { return margin + (top - rank_of[n]) * rank_height }

function draw(    n, right) {
    left = x[1]
    for (n = 1; n <= count; n++) {
        if (x[n] - width(n) / 2 < left) left = x[n] - width(n) / 2
        if (x[n] + width(n) / 2 > right) right = x[n] + width(n) / 2
    }
    total_width = whole(right - left) + 2 * margin
    total_height = 2 * margin + top * rank_height + box_height
    printf "<svg xmlns=\"http://www.w3.org/2000/svg\" width=\"%d\" height=\"%d\" viewBox=\"0 0 %d %d\"", total_width, total_height, total_width, total_height
    print " font-family=\"sans-serif\" font-size=\"14\" text-anchor=\"middle\">"
    print "<title>The crates, each over those that it uses; libraries of the kit have a dashed frame</title>"
    print "<rect width=\"100%\" height=\"100%\" fill=\"white\"/>"
    for (n = 1; n <= lines; n++) draw_line(n)
    for (n = 1; n <= boxes; n++) draw_box(n)
    print "</svg>"
}

function draw_line(n,    k, path, x1, y1, x2, y2, middle) {
    x1 = x_of(line[n, 1])
    y1 = y_of(line[n, 1]) + box_height
    path = "M" x1 " " y1
    for (k = 2; k <= points[n]; k++) {
        x2 = x_of(line[n, k])
        y2 = y_of(line[n, k])
        middle = whole((y1 + y2) / 2)
        path = path "\nC" x1 " " middle " " x2 " " middle " " x2 " " y2
        if (k < points[n]) path = path " V" (y2 + box_height)
        x1 = x2
        y1 = y2 + box_height
    }
    print "<path d=\"" path "\" fill=\"none\" stroke=\"#777\"/>"
}

function draw_box(n) {
    printf "<rect x=\"%d\" y=\"%d\" width=\"%d\" height=\"%d\" rx=\"4\" ", x_of(n) - box_width / 2, y_of(n), box_width, box_height
    print n <= crates ? "fill=\"#eef3fb\" stroke=\"#345\"/>" : "fill=\"white\" stroke=\"#345\" stroke-dasharray=\"4 3\"/>"
    printf "<text x=\"%d\" y=\"%d\">%s</text>\n", x_of(n), y_of(n) + 19, names[n]
}
