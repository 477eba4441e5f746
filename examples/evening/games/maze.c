/* A maze, drawn once and changed by moving the cursor, on a VT52 or a VT100. A warden walks in it as long as you do. */
#include "talk.h"

#define WIDTH 39
#define HEIGHT 21
#define COINS 5
#define LOOPS 14
#define TOP 1
#define WALL '#'
#define FREE ' '
#define COIN '*'
#define EXIT '>'
#define PLAYER '@'
#define WARDEN 'W'
#define ESCAPE 033
#define PLACES (WIDTH * HEIGHT)

static char maze[PLACES];
static int16 player, warden, coins, steps, is_vt100;
/* How far each place is from the player, for the warden; and the places that are still to be looked at. */
static int16 distance[PLACES], queue[PLACES];
static const int16 ways[4] = {-WIDTH, WIDTH, -1, 1};

static void rules(void) {
    text("MAZE\n\n"
         "You are @. Gather the five coins *, and leave by the exit >, which opens for who\n"
         "has them all. The warden W takes a step whenever you have taken two. W, A, S, D\n"
         "or the arrows walk; R draws the maze anew, Q ends.\n\n"
         "Is your terminal a VT52? Press V if it is. Any other key: it is a VT100, or a\n"
         "terminal of today.");
}

static void go_to(int16 row, int16 column) {
    put(ESCAPE);
    if (is_vt100) {
        put('[');
        number(row + 1);
        put(';');
        number(column + 1);
        put('H');
    } else {
        put('Y');
        put((char)(row + ' '));
        put((char)(column + ' '));
    }
}

static void clear_screen(void) {
    go_to(0, 0);
    put(ESCAPE);
    text(is_vt100 ? "[J" : "J");
}

/* Draws one place. */
static void draw(int16 place) {
    go_to((int16)(place / WIDTH + TOP), place % WIDTH);
    put(place == player ? PLAYER : place == warden ? WARDEN : maze[place]);
}

static void tell(const char *what) {
    go_to(0, 0);
    text("Coins ");
    number(coins);
    text(" of 5, steps ");
    number(steps);
    text(what);
}

static void draw_all(void) {
    int16 place;
    clear_screen();
    for (place = 0; place < PLACES; place++) {
        if (place % WIDTH == 0) go_to((int16)(place / WIDTH + TOP), 0);
        put(place == player ? PLAYER : place == warden ? WARDEN : maze[place]);
    }
}

static int16 any(int16 n) {
    return (int16)(random_number() % n);
}

/* Whether a room two places on is still solid rock, within the border. */
static int16 is_rock(int16 place, int16 way) {
    int16 column = place % WIDTH, to = (int16)(place + 2 * way);
    if (to < WIDTH || to >= PLACES - WIDTH) return 0;
    if ((way == 1 && column == WIDTH - 2) || (way == -1 && column == 1)) return 0;
    return maze[to] == WALL;
}

/* Cuts ways from room to room, going back where none leads on; the rooms on the way lie in `queue`. */
static void cut(void) {
    int16 depth = 0, place = WIDTH + 1;
    fill(maze, WALL, PLACES);
    maze[place] = FREE;
    queue[depth++] = place;
    while (depth) {
        int16 way, first = any(4), tried;
        place = queue[depth - 1];
        for (tried = 0; tried < 4; tried++) {
            way = ways[(first + tried) % 4];
            if (is_rock(place, way)) break;
        }
        if (tried == 4) {
            depth--;
            continue;
        }
        maze[place + way] = FREE;
        maze[place + 2 * way] = FREE;
        queue[depth++] = (int16)(place + 2 * way);
    }
}

/* Takes some walls between two rooms away, so that there is a way around the warden. */
static void cut_loops(void) {
    int16 left = LOOPS;
    while (left) {
        int16 place = any(PLACES), column = place % WIDTH;
        if (place < WIDTH || place >= PLACES - WIDTH || !column || column == WIDTH - 1 || maze[place] != WALL) continue;
        if ((maze[place - 1] == FREE && maze[place + 1] == FREE) != (maze[place - WIDTH] == FREE && maze[place + WIDTH] == FREE)) {
            maze[place] = FREE;
            left--;
        }
    }
}

static int16 any_free(void) {
    int16 place;
    do place = any(PLACES);
    while (maze[place] != FREE || place == player || place % WIDTH + place / WIDTH < 12);
    return place;
}

static void furnish(void) {
    int16 left = COINS;
    player = WIDTH + 1;
    maze[PLACES - WIDTH - 2] = EXIT;
    while (left--) maze[any_free()] = COIN;
    warden = any_free();
}

/* Measures how far each place is from the player. */
static void measure(void) {
    int16 first = 0, last = 0, way;
    for (way = 0; way < PLACES; way++) distance[way] = -1;
    distance[player] = 0;
    queue[last++] = player;
    while (first < last) {
        int16 place = queue[first++];
        for (way = 0; way < 4; way++) {
            int16 to = (int16)(place + ways[way]);
            if (maze[to] == WALL || distance[to] >= 0) continue;
            distance[to] = (int16)(distance[place] + 1);
            queue[last++] = to;
        }
    }
}

/* The warden takes a step that brings him nearer. */
static void walk_warden(void) {
    int16 way, old = warden;
    measure();
    for (way = 0; way < 4; way++)
        if (maze[old + ways[way]] != WALL && distance[old + ways[way]] < distance[warden]) warden = (int16)(old + ways[way]);
    draw(old);
    draw(warden);
}

/* The way of a key, or 0; an arrow is ESC A to D, or ESC [ A to D. */
static int16 way_of(int16 typed) {
    if (typed == ESCAPE) {
        typed = next_key();
        if (typed == '[' || typed == 'O') typed = next_key();
        return (int16)(typed == 'A' ? -WIDTH : typed == 'B' ? WIDTH : typed == 'C' ? 1 : typed == 'D' ? -1 : 0);
    }
    switch (capital((char)typed)) {
    case 'W': return -WIDTH;
    case 'S': return WIDTH;
    case 'A': return -1;
    case 'D': return 1;
    default: return 0;
    }
}

static void walk(int16 way) {
    int16 old = player;
    if (maze[player + way] == WALL) return;
    player = (int16)(player + way);
    steps++;
    if (maze[player] == COIN) {
        maze[player] = FREE;
        coins++;
    }
    draw(old);
    draw(player);
    if (steps % 2 == 0 && player != warden) walk_warden();
}

/* Plays up to the exit, the warden or Q: what there is to say. */
static const char *play(void) {
    for (;;) {
        int16 typed;
        tell("   ");
        typed = next_key();
        if (typed == CONTROL_C || capital((char)typed) == 'Q') return ". You leave the maze by the wall.";
        if (capital((char)typed) == 'R') draw_all();
        else walk(way_of(typed));
        if (player == warden) return ". The warden has you.";
        if (maze[player] == EXIT && coins == COINS) return ". You are out, with all coins!";
    }
}

int main(void) {
    const char *end;
    rules();
    is_vt100 = capital((char)next_key()) != 'V';
    random_begin(keys_mixed());
    cut();
    cut_loops();
    furnish();
    draw_all();
    end = play();
    tell(end);
    go_to(HEIGHT + TOP + 1, 0);
    text("Press a key.");
    next_key();
    clear_screen();
    return 0;
}
