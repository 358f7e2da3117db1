/* How much stock a rough casting has over its drawing: the numbers, and the picture on the screen over
 * the bay.
 *
 *     stock DRAWING.stl POINTS [PICTURE [LEAST MOST [DISTANCE [RULE]]]]
 *     stock DRAWING.gauge POINTS [PICTURE [LEAST MOST [DISTANCE [RULE]]]]
 *     stock DRAWING [PICTURE [LEAST MOST]]
 *
 * DRAWING.stl is the drawing as a pattern shop sends it, binary or in text; DRAWING.gauge is the engine's
 * image of a drawing and its tree, which need not be built again. POINTS are the points that were
 * touched: x y z on a line; blank lines, and all behind a #, are passed over. They are searched for
 * within DISTANCE (50 where none is given). RULE is the measuring rule: by 1, which holds where none is
 * given, a point at exactly DISTANCE has no answer; by 2 it has one. A casting keeps the rule that it was
 * first gauged by. A DRAWING under any other name is plain text as tools/make_input.py reads it: settings,
 * triangles, points, distance and maybe a rule in one.
 *
 * Stock is how far a touched point lies outside the drawing, or, with a minus, inside. It is wanted from
 * LEAST to MOST (1 and 4 where none are given). For each point it is told which part of the triangle is
 * nearest: over a face stock is square to it, over an edge or a corner it need not be. On a thin rib the
 * other wall is told too, and how thick the rib is: where the casting is sunk to inside the rib, the nearest
 * wall may be that of the other side, and only both tell. PICTURE is an SVG,
 * which any browser shows: the drawing from two sides, each place in the colour of the touched point nearest
 * to it, with a dot for a point over a face, a diamond over an edge, a square over a corner. Under a name
 * that ends in .stl or .gauge it is not a picture but the drawing, as a binary STL or as an image.
 *
 * The engine's part is read_stl(), read_image(), ask() and write_drawing(): an STL becomes a drawing, a
 * tree is built over it, or both come from an image, and the points are asked for their nearest place on
 * it, for the nearest few, of which other_wall() picks one, and for inside or outside. */
#include "gauge.h"

#include <ctype.h>
#include <math.h>
#include <stdio.h>
#include <stdlib.h>
#include <string.h>

enum { MOST_POINTS = 10000, FEW = GAUGE_MAX_FEW };

typedef struct { double x, y, z; } Vec;

static struct gauge_drawing drawing;
static float touched[3 * MOST_POINTS], windings[MOST_POINTS];
static struct gauge_answer answers[MOST_POINTS], few[FEW * MOST_POINTS]; /* FEW in a row for each point */
static size_t points;
static int has_tree; /* one that came with the drawing */
static unsigned strategy, leaf_minimum, maximum_depth;
static float distance = 50;
static unsigned rule = GAUGE_RULE_BELOW;
static double least = 1, most = 4;
static const double thin_rib = 6; /* walls that are no farther apart are those of a thin rib */

static void fail(const char *what, const char *more)
{
    fprintf(stderr, "stock: %s%s\n", what, more);
    exit(1);
}

static void fail_at(const char *path, size_t line, const char *what)
{
    fprintf(stderr, "stock: %s, line %zu: %s\n", path, line, what);
    exit(1);
}

/* Ends the program where a call was refused, and says why. */
static void done(const char *call, uint64_t returned)
{
    unsigned long long place = gauge_place(returned);
    if (!gauge_refused(returned))
        return;
    fprintf(stderr, "stock: ");
    switch (gauge_number(returned)) {
    case GAUGE_STL:
        fprintf(stderr, "the STL has %llu bytes, which does not fit its count of triangles: it is cut off or damaged, or it is no STL\n", place);
        break;
    case GAUGE_NONE:
        fprintf(stderr, "the drawing has no triangles\n");
        break;
    case GAUGE_TOO_MANY:
        fprintf(stderr, "the drawing has more than %d triangles\n", GAUGE_MAX_TRIANGLES);
        break;
    case GAUGE_COORDINATE:
        fprintf(stderr, "triangle %llu (the first is 0): %c of corner %c is no number, or beyond %.0f\n", place / 9, "xyz"[place % 3],
                "abc"[place % 9 / 3], (double)GAUGE_MAX_COORDINATE);
        break;
    case GAUGE_SETTING: /* of a query it is the rule, else what a tree is built by */
        if (strcmp(call, "gauge_sure") == 0)
            fprintf(stderr, "there is no rule %u: by %d what is nearer than the distance counts, by %d what is at exactly the distance too\n",
                    rule, GAUGE_RULE_BELOW, GAUGE_RULE_BELOW_OR_EQUAL);
        else
            fprintf(stderr, "%s: a setting is out of range: the leaf minimum is 1 to %d, in the image of %d triangles or fewer to %d, the depth 0 to %d\n",
                    call, GAUGE_MAX_LEAF_MINIMUM, GAUGE_MAX_SMALL, GAUGE_MAX_SMALL, GAUGE_MAX_DEPTH);
        break;
    case GAUGE_POINT:
        fprintf(stderr, "point %llu (the first is 0): its %c is no number, or beyond %.0f\n", place / 3, "xyz"[place % 3],
                (double)GAUGE_MAX_COORDINATE);
        break;
    case GAUGE_LAYOUT:
        fprintf(stderr, "the image is cut off or damaged, or it is no image: what begins at its byte %llu is wrong\n", place);
        break;
    case GAUGE_ROOM:
        fprintf(stderr, "the image has more triangles or nodes than any drawing\n");
        break;
    case GAUGE_TREE_ORDER:
        fprintf(stderr, "the tree is damaged: entry %llu of the order list (the first is 0) is out of range or repeated\n", place);
        break;
    case GAUGE_TREE_COUNT:
        fprintf(stderr, "the tree is damaged: it has %zu nodes, and over %zu triangles there are 1 to %zu\n", drawing.nodes, drawing.count,
                2 * drawing.count - 1);
        break;
    case GAUGE_TREE_LISTING:
        fprintf(stderr, "the tree is damaged: it breaks at node %llu (the first is 0), %s\n", place,
                place + 1 == drawing.nodes ? "its root: its links are wrong, or nodes are missing" : "whose kind or links are wrong");
        break;
    case GAUGE_TREE_DEPTH:
        fprintf(stderr, "the tree is damaged: node %llu (the first is 0) is deeper than %d levels\n", place, GAUGE_MAX_DEPTH);
        break;
    case GAUGE_TREE_BOX:
        fprintf(stderr, "the tree is damaged: the box of node %llu (the first is 0) is not that of what it holds\n", place);
        break;
    case GAUGE_DISTANCE:
        fprintf(stderr, "the distance is no number, or not 0 to %.0f\n", (double)GAUGE_MAX_DISTANCE);
        break;
    default:
        fprintf(stderr, "%s refused: %u at %llu (include/gauge.h says what that is)\n", call, gauge_number(returned), place);
    }
    exit(1);
}

/* ---- files */

static int ends_in(const char *path, const char *ending)
{
    const char *end = strrchr(path, '.');
    return end != NULL && strcmp(end, ending) == 0;
}

static int is_named_stl(const char *path)
{
    return ends_in(path, ".stl") || ends_in(path, ".STL");
}

static int is_named_image(const char *path)
{
    return ends_in(path, ".gauge");
}

/* All of a file, and a zero behind it. */
static char *read_file(const char *path, size_t *length)
{
    FILE *file = fopen(path, "rb");
    size_t room = 65536, more;
    char *bytes = malloc(room);
    if (file == NULL)
        fail("cannot read ", path);
    *length = 0;
    while (bytes != NULL && (more = fread(bytes + *length, 1, room - 1 - *length, file)) != 0) {
        *length += more;
        if (*length == room - 1)
            bytes = realloc(bytes, room *= 2);
    }
    if (bytes == NULL)
        fail("no memory", "");
    if (ferror(file))
        fail("cannot read ", path);
    fclose(file);
    bytes[*length] = 0;
    return bytes;
}

/* The next line of a text, NULL behind the last. */
static char *next_line(char **rest)
{
    char *line = *rest;
    size_t length = strcspn(line, "\n");
    if (*line == 0)
        return NULL;
    *rest = line + length + (line[length] == '\n');
    line[length] = 0;
    return line;
}

/* Whether there are three numbers, and nothing else. */
static int are_three(const char *words, float *numbers)
{
    for (int i = 0; i < 3; i++) {
        char *end;
        numbers[i] = strtof(words, &end);
        if (end == words || (*end != 0 && !isspace((unsigned char)*end)))
            return 0;
        words = end;
    }
    return words[strspn(words, " \t\r")] == 0;
}

/* ---- the drawing */

/* Laid for as many triangles as may come. */
static void lay(void)
{
    drawing = gauge_lay(malloc(GAUGE_DRAWING_BYTES(GAUGE_MAX_TRIANGLES)), GAUGE_MAX_TRIANGLES);
    if (drawing.triangles == NULL)
        fail("no memory", "");
}

/* An STL in text: between solid and endsolid, facets of seven lines each. */
static void read_text_stl(const char *path, char *text)
{
    static const char *const facet[] = {"facet", "outer", "vertex", "vertex", "vertex", "endloop", "endfacet"};
    size_t at = 0, lines = 0, triangles = 0;
    int open = 0, end;
    for (char *line; (line = next_line(&text)) != NULL;) {
        char word[16];
        lines++;
        if (sscanf(line, "%15s%n", word, &end) != 1)
            continue;
        for (char *c = word; *c != 0; c++)
            *c = (char)tolower((unsigned char)*c);
        if (at == 0 && strcmp(word, open ? "endsolid" : "solid") == 0) {
            open = !open;
            continue;
        }
        if (!open || strcmp(word, facet[at]) != 0)
            fail_at(path, lines, "no binary STL, and as one in text it breaks here");
        if (triangles == GAUGE_MAX_TRIANGLES)
            fail_at(path, lines, "here it has too many triangles");
        if (word[0] == 'v' && !are_three(line + end, drawing.triangles + 9 * triangles + 3 * (at - 2)))
            fail_at(path, lines, "a vertex is three numbers");
        at = (at + 1) % (sizeof facet / sizeof *facet);
        triangles += at == 0;
    }
    if (open)
        fail_at(path, lines, "it is cut off here: its endsolid is missing");
    drawing = gauge_lay(drawing.triangles, triangles);
}

/* The bytes of a binary STL go to the engine as they are. Those that it refuses for their size are taken for a text where
 * no byte of them is zero: in a binary STL the last of the count is. That a file begins with "solid" tells nothing: every
 * text does, and many a binary STL. */
static void read_stl(const char *path)
{
    size_t length;
    char *bytes = read_file(path, &length);
    lay();
    uint64_t read = gauge_drawing_read_stl(&drawing, (const uint8_t *)bytes, length);
    if (gauge_number(read) == GAUGE_STL && length != 0 && strlen(bytes) == length)
        read_text_stl(path, bytes);
    else
        done("gauge_read_stl", read);
    free(bytes);
    strategy = GAUGE_AREA;
    leaf_minimum = 1;
    maximum_depth = 40;
}

/* Whether the tree in it is one of its triangles the calls that ask it find out. */
static void read_image(const char *path)
{
    size_t length;
    char *bytes = read_file(path, &length);
    lay();
    done("gauge_read", gauge_drawing_read(&drawing, (const uint8_t *)bytes, length));
    free(bytes);
    has_tree = 1;
}

static void read_points(const char *path)
{
    size_t length, lines = 0;
    char *text = read_file(path, &length), *rest = text;
    if (strlen(text) != length)
        fail("no text: ", path);
    for (char *line; (line = next_line(&rest)) != NULL;) {
        lines++;
        line[strcspn(line, "#")] = 0;
        if (line[strspn(line, " \t\r")] == 0)
            continue;
        if (points == MOST_POINTS)
            fail_at(path, lines, "here it has too many points");
        if (!are_three(line, touched + 3 * points))
            fail_at(path, lines, "a point is three numbers, x y z");
        points++;
    }
    free(text);
}

/* In text. The block is laid again for the triangles that there are. */
static void read_drawing(const char *path)
{
    char line[512], word[16], name[16], extra[2]; /* where a line reads an extra, it has one word too many */
    int distances = 0, rules = 0;
    size_t triangles = 0;
    FILE *file = fopen(path, "r");
    if (file == NULL)
        fail("cannot read ", path);
    lay();
    while (fgets(line, sizeof line, file) != NULL) {
        float *t = drawing.triangles + 9 * triangles, *p = touched + 3 * points;
        line[strcspn(line, "#\n")] = 0;
        if (sscanf(line, "%15s", word) != 1)
            continue;
        if (strcmp(word, "triangle") == 0 && triangles < GAUGE_MAX_TRIANGLES &&
            sscanf(line, "%*s %f %f %f %f %f %f %f %f %f %1s", t, t + 1, t + 2, t + 3, t + 4, t + 5, t + 6, t + 7, t + 8, extra) == 9)
            triangles++;
        else if (strcmp(word, "point") == 0 && points < MOST_POINTS && sscanf(line, "%*s %f %f %f %1s", p, p + 1, p + 2, extra) == 3)
            points++;
        else if (strcmp(word, "settings") == 0 && sscanf(line, "%*s %15s %9u %9u %1s", name, &leaf_minimum, &maximum_depth, extra) == 3 &&
                 (strcmp(name, "median") == 0 || strcmp(name, "area") == 0))
            strategy = strcmp(name, "median") == 0 ? GAUGE_MEDIAN : GAUGE_AREA;
        else if (strcmp(word, "distance") == 0 && sscanf(line, "%*s %f %1s", &distance, extra) == 1)
            distances++;
        else if (strcmp(word, "rule") == 0 && rules == 0 && sscanf(line, "%*s %9u %1s", &rule, extra) == 1)
            rules++;
        else
            fail("no triangle, point, settings, distance or rule, or too many of them: ", line);
    }
    fclose(file);
    if (strategy == 0 || distances == 0)
        fail("a settings line and a distance line are wanted in ", path);
    drawing = gauge_lay(drawing.triangles, triangles);
}

/* ---- the engine's part */

/* Inside or outside is asked for by fast winding: its error is far below the half that parts them. */
static void ask(void)
{
    if (!has_tree)
        done("gauge_build", gauge_drawing_build(&drawing, strategy, leaf_minimum, maximum_depth));
    done("gauge_sure", gauge_drawing_sure(&drawing, touched, points, distance, rule, answers));
    done("gauge_few", gauge_drawing_few(&drawing, touched, points, distance, rule, FEW, few));
    float *sums = malloc(GAUGE_SUMS(drawing.count) * sizeof *sums);
    if (sums == NULL)
        fail("no memory", "");
    done("gauge_node_sums", gauge_drawing_node_sums(&drawing, sums));
    done("gauge_fast_winding", gauge_drawing_fast_winding(&drawing, sums, touched, points, 2, windings));
    free(sums);
    printf("%zu triangles, a tree of %zu nodes, %zu points touched\n", drawing.count, drawing.nodes, points);
}

static double stock_of(size_t i)
{
    double away = sqrt(answers[i].squared);
    return fabsf(windings[i]) > 0.5f ? -away : away;
}

/* ---- places and directions */

static Vec minus(Vec a, Vec b)
{
    Vec r = {a.x - b.x, a.y - b.y, a.z - b.z};
    return r;
}

static Vec cross(Vec a, Vec b)
{
    Vec r = {a.y * b.z - a.z * b.y, a.z * b.x - a.x * b.z, a.x * b.y - a.y * b.x};
    return r;
}

static double dot(Vec a, Vec b)
{
    return a.x * b.x + a.y * b.y + a.z * b.z;
}

static Vec unit(Vec a)
{
    double size = sqrt(dot(a, a));
    Vec r = {0, 0, 0};
    if (size > 0) {
        r.x = a.x / size;
        r.y = a.y / size;
        r.z = a.z / size;
    }
    return r;
}

static Vec corner(size_t t, int k)
{
    const float *c = drawing.triangles + 9 * t + 3 * k;
    Vec r = {c[0], c[1], c[2]};
    return r;
}

static Vec normal_of(size_t t)
{
    return unit(cross(minus(corner(t, 1), corner(t, 0)), minus(corner(t, 2), corner(t, 0))));
}

static Vec place_of(const struct gauge_answer *a)
{
    Vec r = {a->x, a->y, a->z};
    return r;
}

static Vec foot(size_t i)
{
    return place_of(&answers[i]);
}

/* ---- thin ribs */

/* How far the two walls are apart. Where they run side by side that is what the two distances from a point add up to inside the rib,
 * and what they differ by outside. */
static double thickness(size_t i, const struct gauge_answer *wall)
{
    Vec across = minus(place_of(wall), foot(i));
    return sqrt(dot(across, across));
}

/* The other wall of a thin rib at a point, NULL where there is none. It need not be the second of the nearest few: that is mostly
 * another triangle of the same wall, which faces the same way. So it is the first that faces the other way and lies behind the nearest,
 * with the metal in between: what faces the other way and lies in front is the wall across a gap. Where the triangles are small beside
 * the rib, all of the few may be of one wall, and the other is not found. */
static const struct gauge_answer *other_wall(size_t i)
{
    for (const struct gauge_answer *a = few + FEW * i + 1; a < few + FEW * (i + 1) && a->found; a++) {
        Vec normal = normal_of(answers[i].triangle);
        if (dot(normal, normal_of(a->triangle)) < -0.5 && dot(normal, minus(place_of(a), foot(i))) < 0)
            return thickness(i, a) <= thin_rib ? a : NULL;
    }
    return NULL;
}

/* ---- what it means for the casting */

enum { SHORT, THIN, GOOD, HEAVY, UNKNOWN, CLASSES };

static const char *const colours[CLASSES] = {"#d7301f", "#fdae1b", "#1a9850", "#2b6cb8", "#b4b4b4"};
static const int shades[CLASSES][3] = {{215, 48, 31}, {253, 174, 27}, {26, 152, 80}, {43, 108, 184}, {180, 180, 180}};
static size_t counted[CLASSES];
static size_t worst;

enum { OVER_FACE, OVER_CORNER, OVER_EDGE, OVERS };

static size_t counted_over[OVERS];

static int over(size_t i)
{
    uint32_t part = answers[i].part;
    return part == GAUGE_FACE ? OVER_FACE : part < GAUGE_EDGE_AB ? OVER_CORNER : OVER_EDGE;
}

static int class_of(size_t i)
{
    if (!answers[i].found)
        return UNKNOWN;
    double stock = stock_of(i);
    return stock < 0 ? SHORT : stock < least ? THIN : stock <= most ? GOOD : HEAVY;
}

static void judge(void)
{
    worst = MOST_POINTS;
    for (size_t i = 0; i < points; i++) {
        counted[class_of(i)]++;
        counted_over[over(i)] += answers[i].found;
        if (answers[i].found && (worst == MOST_POINTS || stock_of(i) < stock_of(worst)))
            worst = i;
    }
}

static void print_stock(void)
{
    static const char *const words[CLASSES] = {"SHORT", "thin", "", "heavy", ""};
    static const char *const parts[] = {"face", "corner a", "corner b", "corner c", "edge ab", "edge ac", "edge bc"}; /* by their numbers */
    size_t ribs = 0, thinnest = 0;
    double thin = INFINITY;
    for (size_t i = 0; i < points; i++) {
        const struct gauge_answer *a = &answers[i], *wall = other_wall(i);
        printf("%4zu  at %9.3f %9.3f %9.3f  ", i, (double)touched[3 * i], (double)touched[3 * i + 1], (double)touched[3 * i + 2]);
        if (a->found)
            printf("stock %+8.3f  over triangle %4u %-8s at %9.3f %9.3f %9.3f  %s\n", stock_of(i), a->triangle, parts[a->part], (double)a->x,
                   (double)a->y, (double)a->z, words[class_of(i)]);
        else
            printf("nothing within %g\n", (double)distance);
        if (wall == NULL)
            continue;
        printf("%40srib   %8.3f  other wall    %4u %-8s at %9.3f %9.3f %9.3f  %.3f away\n", "", thickness(i, wall), wall->triangle,
               parts[wall->part], (double)wall->x, (double)wall->y, (double)wall->z, sqrt(wall->squared));
        ribs++;
        if (thickness(i, wall) < thin) {
            thin = thickness(i, wall);
            thinnest = i;
        }
    }
    if (ribs != 0)
        printf("over a thin rib %zu, the thinnest %.3f at point %zu\n", ribs, thin, thinnest);
    printf("over a face %zu, over an edge %zu, over a corner %zu\n", counted_over[OVER_FACE], counted_over[OVER_EDGE], counted_over[OVER_CORNER]);
    printf("short of stock %zu, thin %zu, good %zu, heavy %zu, no answer %zu\n", counted[SHORT], counted[THIN], counted[GOOD],
           counted[HEAVY], counted[UNKNOWN]);
    if (worst < points)
        printf("least stock %+.3f at point %zu\n", stock_of(worst), worst);
}

/* ---- the picture */

/* A view: what is right, up and towards the eye; the middle of what it shows, and where on the sheet
 * that stands. */
typedef struct { Vec right, up, eye; double middle_right, middle_up, scale, x, y; } View;

/* A piece of a triangle, of an edge, or a touched point, in the plane of the sheet. */
enum Kind { FACE, EDGE, MARK };
typedef struct { double depth, x[3], y[3]; enum Kind kind; int class, over; double light; } Piece;

enum { MOST_PARTS = 24, MOST_PIECES = 300000 };
static Piece pieces[MOST_PIECES];
static size_t piece_count;

static Piece *new_piece(enum Kind kind, double depth)
{
    if (piece_count == MOST_PIECES)
        fail("too much to draw", "");
    Piece *p = &pieces[piece_count++];
    p->kind = kind;
    p->depth = depth;
    return p;
}

static double across(const View *v, Vec p)
{
    return v->x + v->scale * (dot(v->right, p) - v->middle_right);
}

static double down(const View *v, Vec p)
{
    return v->y - v->scale * (dot(v->up, p) - v->middle_up);
}

/* In how many parts a side is cut, so that none is much longer than step. */
static int parts_of(Vec a, Vec b, double step)
{
    Vec d = minus(a, b);
    double parts = ceil(sqrt(dot(d, d)) / step);
    return parts < 1 ? 1 : parts > MOST_PARTS ? MOST_PARTS : (int)parts;
}

/* The class of the touched point whose place on the drawing is nearest, of those on faces turned much
 * the same way; unknown where none is within reach. */
static int class_near(Vec p, Vec normal, double reach)
{
    static Vec normals[GAUGE_MAX_TRIANGLES];
    static int made;
    double best = reach * reach;
    int class = UNKNOWN;
    for (size_t t = 0; !made && t < drawing.count; t++)
        normals[t] = normal_of(t);
    made = 1;
    for (size_t i = 0; i < points; i++) {
        if (!answers[i].found)
            continue;
        Vec d = minus(foot(i), p);
        double away = dot(d, d);
        if (away < best && dot(normals[answers[i].triangle], normal) > 0.5) {
            best = away;
            class = class_of(i);
        }
    }
    return class;
}

static Vec mixed(Vec a, Vec b, Vec c, double s, double t)
{
    Vec r = {a.x + s * (b.x - a.x) + t * (c.x - a.x), a.y + s * (b.y - a.y) + t * (c.y - a.y), a.z + s * (b.z - a.z) + t * (c.z - a.z)};
    return r;
}

static void add_piece(const View *v, Vec a, Vec b, Vec c, Vec normal, double reach)
{
    static const Vec lamp = {-0.28, 0.16, 0.95}; /* from the left of the eye */
    Vec corners[3] = {a, b, c}, middle = mixed(a, b, c, 1.0 / 3, 1.0 / 3);
    Vec turned = {dot(normal, v->right), dot(normal, v->up), dot(normal, v->eye)};
    double lit = dot(turned, lamp);
    Piece *p = new_piece(FACE, dot(v->eye, middle));
    p->class = class_near(middle, normal, reach);
    p->light = 0.66 + 0.34 * (lit > 0 ? lit : 0);
    for (int k = 0; k < 3; k++) {
        p->x[k] = across(v, corners[k]);
        p->y[k] = down(v, corners[k]);
    }
}

/* The sides of all triangles, sorted by the bytes of their ends: one that runs the other way is found at once. */
typedef struct { float from[3], to[3]; size_t triangle; } Side;
static Side sides[3 * GAUGE_MAX_TRIANGLES];

static int by_ends(const void *a, const void *b)
{
    return memcmp(a, b, 6 * sizeof(float));
}

static Side side_of(size_t t, size_t from, size_t to)
{
    Side s = {{0}, {0}, t};
    for (size_t k = 0; k < 3; k++) { /* minus zero is zero */
        s.from[k] = drawing.triangles[9 * t + 3 * from + k] + 0.0f;
        s.to[k] = drawing.triangles[9 * t + 3 * to + k] + 0.0f;
    }
    return s;
}

static void sort_sides(void)
{
    for (size_t i = 0; i < 3 * drawing.count; i++)
        sides[i] = side_of(i / 3, i % 3, (i + 1) % 3);
    qsort(sides, 3 * drawing.count, sizeof *sides, by_ends);
}

/* Whether the surface goes on behind this side and hardly bends there. */
static int is_smooth(size_t t, size_t side)
{
    Side wanted = side_of(t, (side + 1) % 3, side);
    size_t first = 0, last = 3 * drawing.count, end = last;
    while (first < last) {
        size_t middle = (first + last) / 2;
        if (by_ends(&sides[middle], &wanted) < 0)
            first = middle + 1;
        else
            last = middle;
    }
    for (; first < end && by_ends(&sides[first], &wanted) == 0; first++)
        if (sides[first].triangle != t && dot(normal_of(sides[first].triangle), normal_of(t)) > 0.8)
            return 1;
    return 0;
}

/* A side of a triangle where the surface bends sharply. */
static void add_edge(const View *v, size_t t, int side, double step)
{
    Vec a = corner(t, side), b = corner(t, (side + 1) % 3);
    if (dot(normal_of(t), v->eye) <= 0 || is_smooth(t, (size_t)side))
        return;
    int parts = parts_of(a, b, step);
    for (int i = 0; i < parts; i++) {
        Vec ends[2] = {mixed(a, b, a, (double)i / parts, 0), mixed(a, b, a, (double)(i + 1) / parts, 0)};
        Piece *p = new_piece(EDGE, dot(v->eye, ends[0]) + step);
        for (int k = 0; k < 2; k++) {
            p->x[k] = across(v, ends[k]);
            p->y[k] = down(v, ends[k]);
        }
    }
}

/* The triangle in pieces, where it is turned towards the eye. */
static void add_triangle(const View *v, size_t t, double step, double reach)
{
    Vec a = corner(t, 0), b = corner(t, 1), c = corner(t, 2), normal = normal_of(t);
    int ab = parts_of(a, b, step), bc = parts_of(b, c, step), ca = parts_of(c, a, step);
    int parts = ab > bc ? ab : bc;
    parts = parts > ca ? parts : ca;
    double n = parts;
    if (dot(normal, v->eye) <= 0)
        return;
    for (int i = 0; i < parts; i++)
        for (int k = 0; i + k < parts; k++) {
            Vec here = mixed(a, b, c, i / n, k / n), one = mixed(a, b, c, (i + 1) / n, k / n), other = mixed(a, b, c, i / n, (k + 1) / n);
            add_piece(v, here, one, other, normal, reach);
            if (i + k + 1 < parts)
                add_piece(v, one, mixed(a, b, c, (i + 1) / n, (k + 1) / n), other, normal, reach);
        }
}

/* Which way the place of a touched point is turned: a face as its normal is; an edge or a corner as the point lies off it, since the
 * triangle that was answered is only one of those that meet there. */
static Vec turned(size_t i)
{
    Vec at = {touched[3 * i], touched[3 * i + 1], touched[3 * i + 2]};
    if (over(i) == OVER_FACE || answers[i].squared == 0)
        return normal_of(answers[i].triangle);
    return unit(stock_of(i) < 0 ? minus(foot(i), at) : minus(at, foot(i)));
}

static int is_seen(const View *v, size_t i)
{
    return answers[i].found && dot(turned(i), v->eye) > 0.05;
}

static void add_mark(const View *v, size_t i, double lift)
{
    if (!is_seen(v, i))
        return;
    Piece *p = new_piece(MARK, dot(v->eye, foot(i)) + lift);
    p->x[0] = across(v, foot(i));
    p->y[0] = down(v, foot(i));
    p->class = class_of(i);
    p->over = over(i);
}

/* Over a face a dot, larger where stock is short; over an edge a diamond, over a corner a square, in the class's colour, with a rim that
 * stands out from whatever is behind it. */
static void draw_mark(FILE *f, double x, double y, int class, int over)
{
    int size = class == SHORT ? 11 : 8;
    if (over == OVER_FACE)
        fprintf(f, "<circle cx='%.1f' cy='%.1f' r='%s' fill='%s'/>\n", x, y, class == SHORT ? "5" : "1.8", class == SHORT ? "#fff" : "#222");
    for (int rim = 0; rim < 2 && over != OVER_FACE; rim++)
        fprintf(f, "<path d='%s' transform='translate(%.1f %.1f) scale(%d)' fill='%s' stroke='%s' stroke-width='%s'/>\n",
                over == OVER_EDGE ? "M-1 0L0 -1L1 0L0 1z" : "M-.85 -.85h1.7v1.7h-1.7z", x, y, size, colours[class], rim == 0 ? "#222" : "#fff",
                rim == 0 ? ".75" : ".35");
}

static int farther_first(const void *a, const void *b)
{
    double x = ((const Piece *)a)->depth, y = ((const Piece *)b)->depth;
    return x < y ? -1 : x > y;
}

static void draw_view(FILE *f, const View *v, double size)
{
    double step = size / 28, reach = size / 14;
    piece_count = 0;
    for (size_t t = 0; t < drawing.count; t++) {
        add_triangle(v, t, step, reach);
        for (int side = 0; side < 3; side++)
            add_edge(v, t, side, step);
    }
    for (size_t i = 0; i < points; i++)
        add_mark(v, i, step);
    qsort(pieces, piece_count, sizeof *pieces, farther_first);
    for (size_t i = 0; i < piece_count; i++) {
        const Piece *p = &pieces[i];
        const int *s = shades[p->class];
        if (p->kind == MARK) {
            draw_mark(f, p->x[0], p->y[0], p->class, p->over);
            continue;
        }
        if (p->kind == EDGE) {
            fprintf(f, "<path d='M%.1f %.1fL%.1f %.1f' stroke='#222' stroke-width='2'/>\n", p->x[0], p->y[0], p->x[1], p->y[1]);
            continue;
        }
        int r = (int)(s[0] * p->light), g = (int)(s[1] * p->light), b = (int)(s[2] * p->light);
        /* the edge in the same colour closes the seams between pieces */
        fprintf(f, "<path d='M%.1f %.1fL%.1f %.1fL%.1f %.1fz' fill='#%02x%02x%02x' stroke='#%02x%02x%02x'/>\n", p->x[0], p->y[0], p->x[1],
                p->y[1], p->x[2], p->y[2], r, g, b, r, g, b);
    }
}

enum { WIDE = 1600, HIGH = 900 };

static void text(FILE *f, double x, double y, int size, const char *fill, const char *anchor, const char *words)
{
    fprintf(f, "<text x='%.0f' y='%.0f' font-size='%d' fill='%s' text-anchor='%s'>%s</text>\n", x, y, size, fill, anchor, words);
}

/* The verdict, for a look from across the bay. Enough is said only where every point was measured. */
static void draw_verdict(FILE *f)
{
    static const char *const words[CLASSES] = {"SHORT OF STOCK", "STOCK IS THIN", "ENOUGH STOCK", "ENOUGH STOCK", "NOT MEASURED"};
    static const char *const which[CLASSES] = {"short", "thin", "good", "heavy", "without answer"};
    char more[128];
    int class = counted[SHORT] != 0 ? SHORT : counted[THIN] != 0 ? THIN : counted[UNKNOWN] != 0 || points == 0 ? UNKNOWN : GOOD;
    const char *ink = class == SHORT || class == GOOD ? "#fff" : "#000";
    fprintf(f, "<rect width='%d' height='120' fill='%s'/>\n", WIDE, colours[class]);
    text(f, 40, 86, 76, ink, "start", words[class]);
    snprintf(more, sizeof more, "%zu of %zu points %s", counted[class], points, which[class]);
    text(f, WIDE - 40, 100, 30, ink, "end", more);
    if (worst >= points)
        return;
    snprintf(more, sizeof more, "least %+.2f mm", stock_of(worst));
    text(f, WIDE - 40, 58, 44, ink, "end", more);
}

static void draw_legend(FILE *f)
{
    static const double at[CLASSES] = {40, 325, 595, 915, 1275};
    char words[CLASSES][64];
    snprintf(words[SHORT], 64, "short: below 0");
    snprintf(words[THIN], 64, "thin: below %g", least);
    snprintf(words[GOOD], 64, "good: %g to %g mm", least, most);
    snprintf(words[HEAVY], 64, "heavy: above %g mm", most);
    snprintf(words[UNKNOWN], 64, "not touched");
    for (int c = 0; c < CLASSES; c++) {
        fprintf(f, "<rect x='%.0f' y='%d' width='40' height='40' fill='%s' stroke='#000'/>\n", at[c], HIGH - 60, colours[c]);
        text(f, at[c] + 52, HIGH - 31, 25, "#000", "start", words[c]);
    }
}

/* What the marks are, under the verdict. */
static void draw_marks(FILE *f)
{
    static const char *const words[OVERS] = {"over a face", "over a corner", "over an edge"};
    static const double at[OVERS] = {960, 1364, 1152};
    for (int k = 0; k < OVERS; k++) {
        if (k == OVER_FACE)
            fprintf(f, "<circle cx='%.0f' cy='150' r='4' fill='#222'/>\n", at[k]);
        else
            draw_mark(f, at[k], 150, GOOD, k);
        text(f, at[k] + 22, 158, 22, "#000", "start", words[k]);
    }
}

/* A ring round the place with the least stock, where the view shows it, with its number. */
static void draw_ring(FILE *f, const View *v)
{
    char number[32];
    if (worst >= points || class_of(worst) > THIN || !is_seen(v, worst))
        return;
    double x = across(v, foot(worst)), y = down(v, foot(worst));
    int low = y > v->y;
    double to_x = v->x + (x < v->x ? -260 : 260), to_y = v->y + (low ? 290 : -250);
    snprintf(number, sizeof number, "%+.2f mm", stock_of(worst));
    fprintf(f, "<circle cx='%.1f' cy='%.1f' r='34' fill='none' stroke='#000' stroke-width='6'/>\n", x, y);
    fprintf(f, "<path d='M%.1f %.1fL%.1f %.1f' stroke='#000' stroke-width='6'/>\n", x + (to_x - x) * 34 / hypot(to_x - x, to_y - y),
            y + (to_y - y) * 34 / hypot(to_x - x, to_y - y), to_x, to_y);
    fprintf(f, "<g stroke='#f4f4f4' stroke-width='10'>\n"); /* clear of what is behind it */
    text(f, to_x, to_y + (low ? 50 : -14), 48, "#f4f4f4", "middle", number);
    fprintf(f, "</g>\n");
    text(f, to_x, to_y + (low ? 50 : -14), 48, "#000", "middle", number);
}

/* From this direction, filling a frame whose middle is at x. */
static View view_from(double turn, double rise, double x)
{
    Vec eye = {cos(rise) * cos(turn), cos(rise) * sin(turn), sin(rise)}, right = {-sin(turn), cos(turn), 0};
    View v = {right, cross(eye, right), eye, 0, 0, 0, x, 465};
    double low[2] = {INFINITY, INFINITY}, high[2] = {-INFINITY, -INFINITY};
    for (size_t t = 0; t < drawing.count; t++)
        for (int k = 0; k < 3; k++) {
            double at[2] = {dot(v.right, corner(t, k)), dot(v.up, corner(t, k))};
            for (int i = 0; i < 2; i++) {
                low[i] = fmin(low[i], at[i]);
                high[i] = fmax(high[i], at[i]);
            }
        }
    v.middle_right = (low[0] + high[0]) / 2;
    v.middle_up = (low[1] + high[1]) / 2;
    v.scale = fmin(720 / (high[0] - low[0]), 560 / (high[1] - low[1]));
    return v;
}

static void draw(const char *path)
{
    View above = view_from(-0.35, 0.62, 410), under = view_from(2.4, -0.62, 1190);
    double size = 900 / above.scale;
    FILE *f = fopen(path, "w");
    if (f == NULL)
        fail("cannot write ", path);
    fprintf(f, "<svg xmlns='http://www.w3.org/2000/svg' viewBox='0 0 %d %d' font-family='sans-serif' font-weight='bold'>\n", WIDE, HIGH);
    fprintf(f, "<rect width='%d' height='%d' fill='#f4f4f4'/>\n", WIDE, HIGH);
    sort_sides();
    draw_view(f, &above, size);
    draw_view(f, &under, size);
    draw_ring(f, &above);
    draw_ring(f, &under);
    text(f, above.x, 800, 28, "#000", "middle", "from above");
    text(f, under.x, 800, 28, "#000", "middle", "from below");
    draw_verdict(f);
    draw_legend(f);
    draw_marks(f);
    fprintf(f, "</svg>\n");
    if (fclose(f) != 0)
        fail("cannot write ", path);
    printf("the picture is %s\n", path);
}

/* ---- the drawing as a binary STL, or as an image */

/* Nobody's drawing is written over. */
static void write_drawing(const char *path)
{
    int stl = is_named_stl(path);
    size_t room = stl ? GAUGE_STL_BYTES(drawing.count) : GAUGE_IMAGE_MAX(drawing.count);
    uint8_t *bytes = malloc(room);
    FILE *f = fopen(path, "rb");
    if (f != NULL)
        fail("there is a drawing already: ", path);
    if (bytes == NULL)
        fail("no memory", "");
    uint64_t length = stl ? gauge_drawing_write_stl(&drawing, bytes, room) : gauge_drawing_write(&drawing, bytes, room);
    done(stl ? "gauge_write_stl" : "gauge_write", length);
    f = fopen(path, "wb");
    if (f == NULL || fwrite(bytes, 1, length, f) != length || fclose(f) != 0)
        fail("cannot write ", path);
    free(bytes);
    printf("the drawing is %s\n", path);
}

static double number(const char *word)
{
    char *end;
    double x = strtod(word, &end);
    if (end == word || *end != 0)
        fail("no number: ", word);
    return x;
}

static unsigned whole_number(const char *word)
{
    double x = number(word);
    if (!(x >= 0 && x <= UINT32_MAX && x == floor(x)))
        fail("no whole number: ", word);
    return (unsigned)x;
}

int main(int argc, char **argv)
{
    int stl = argc > 1 && is_named_stl(argv[1]), image = argc > 1 && is_named_image(argv[1]);
    int first = stl || image ? 3 : 2, given = argc - first;
    if (given != 0 && given != 1 && given != 3 && !(first == 3 && (given == 4 || given == 5)))
        fail("usage: stock DRAWING.stl POINTS [PICTURE [LEAST MOST [DISTANCE [RULE]]]]\n"
             "       stock DRAWING.gauge POINTS [PICTURE [LEAST MOST [DISTANCE [RULE]]]]\n"
             "       stock DRAWING [PICTURE [LEAST MOST]]\n",
             "POINTS has x y z on a line. LEAST and MOST are 1 and 4, DISTANCE is 50, RULE is 1 where none is given.");
    if (given >= 3) {
        least = number(argv[first + 1]);
        most = number(argv[first + 2]);
        if (!(least <= most))
            fail("LEAST to MOST is no range", "");
    }
    if (given >= 4)
        distance = (float)number(argv[first + 3]);
    if (given == 5)
        rule = whole_number(argv[first + 4]);
    if (stl)
        read_stl(argv[1]);
    else if (image)
        read_image(argv[1]);
    else
        read_drawing(argv[1]);
    if (first == 3)
        read_points(argv[2]);
    ask();
    judge();
    print_stock();
    if (given > 0 && (is_named_stl(argv[first]) || is_named_image(argv[first])))
        write_drawing(argv[first]);
    else if (given > 0)
        draw(argv[first]);
    return 0;
}
