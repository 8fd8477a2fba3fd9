// C++ without exceptions and type information: virtual functions, templates, lambdas, static objects with constructors
// and destructors, new and delete, static objects of functions that two threads construct, and a lock guard.
#include <lock_guard.h>
#include <pthread.h>
#include <stdint.h>
#include <stdio.h>

static int right = 0;
static int wrong = 0;

static void expect(const char *what, int answer, int expected)
{
    if (answer == expected) {
        right++;
    } else {
        wrong++;
        printf("%s: %d, not %d\n", what, answer, expected);
    }
}

static int alive = 0;
static int local_ends = 0;

// A shape with an area, of which there are as many as `alive` says.
class shape {
  public:
    shape()
    {
        alive++;
    }
    virtual ~shape()
    {
        alive--;
    }
    virtual int area() const = 0;
    virtual int corners() const
    {
        return 4;
    }
};

class rectangle : public shape {
  public:
    rectangle(int width, int height) : width(width), height(height) {}
    int area() const override
    {
        return width * height;
    }

  private:
    int width;
    int height;
};

class triangle : public rectangle {
  public:
    triangle(int width, int height) : rectangle(width, height) {}
    int area() const override
    {
        return rectangle::area() / 2;
    }
    int corners() const override
    {
        return 3;
    }
};

static void virtuals()
{
    shape *shapes[] = {new rectangle(3, 4), new triangle(3, 4)};
    expect("alive", alive, 3); // one is static
    expect("a rectangle's area", shapes[0]->area(), 12);
    expect("a triangle's area", shapes[1]->area(), 6);
    expect("corners", shapes[0]->corners() * 10 + shapes[1]->corners(), 43);
    for (shape *it : shapes) {
        delete it;
    }
    expect("alive", alive, 1);
    triangle *row = new triangle[3]{{1, 2}, {3, 4}, {5, 6}};
    expect("of a row", row[2].area(), 15);
    delete[] row;
    expect("alive", alive, 1);
}

// A stack of at most N elements.
template <typename T, int N> class stack {
  public:
    bool push(T element)
    {
        if (count == N) {
            return false;
        }
        elements[count++] = element;
        return true;
    }
    T pop()
    {
        return elements[--count];
    }

  private:
    T elements[N];
    int count = 0;
};

template <typename F> static int sum(int from, int to, F function)
{
    int it = 0;
    for (int i = from; i <= to; i++) {
        it += function(i);
    }
    return it;
}

static void templates()
{
    stack<int64_t, 2> numbers;
    stack<const char *, 4> texts;
    expect("push", numbers.push(INT64_C(1) << 40) && numbers.push(2) && !numbers.push(3), 1);
    expect("pop", numbers.pop() == 2 && numbers.pop() == INT64_C(1) << 40, 1);
    texts.push("text");
    expect("of texts", texts.pop()[3], 't');
    int factor = 3;
    auto times = [factor](int number) { return factor * number; };
    expect("lambda", sum(1, 4, times), 30);
    int seen = 0;
    auto count = [&seen](int number) -> int { return seen += number; };
    sum(1, 3, count);
    expect("lambda that changes", seen, 6);
}

// A static object: constructed before main, destroyed at exit.
class global {
  public:
    explicit global(int number) : number(number), square(3, 3) {}
    ~global()
    {
        printf("destroyed %d, alive %d, of threads %d\n", number, alive, local_ends);
    }
    int number;
    rectangle square;
};

static global object(7);

static pthread_mutex_t mutex = PTHREAD_MUTEX_INITIALIZER;
static int constructed = 0;

// Slow to construct, so that two threads come to it at a time.
class slow {
  public:
    slow()
    {
        for (int i = 0; i < 50; i++) {
            sched_yield();
        }
        constructed++;
    }
    int answer = 42;
};

static int slow_answer()
{
    static slow only;
    return only.answer;
}

static int counted = 0;
static thread_local int mine = 1;

static void *work(void *)
{
    int answer = slow_answer();
    for (int i = 0; i < 20; i++) {
        lock_guard guard(mutex);
        int before = counted;
        sched_yield();
        counted = before + 1;
        if (guard.error() != 0) {
            return nullptr;
        }
        mine += 2;
    }
    return reinterpret_cast<void *>(answer + mine);
}

// A thread-local object with a constructor and a destructor.
class local {
  public:
    local()
    {
        number = 5;
    }
    ~local()
    {
        local_ends += number;
    }
    int number;
};

static thread_local local object_of_thread;

static void *use_local(void *argument)
{
    if (argument != nullptr) {
        object_of_thread.number += 2;
    }
    return nullptr;
}

static void thread_locals()
{
    pthread_t thread;
    pthread_create(&thread, nullptr, use_local, nullptr);
    pthread_join(thread, nullptr);
    expect("not used, not destroyed", local_ends, 0);
    pthread_create(&thread, nullptr, use_local, &local_ends);
    pthread_join(thread, nullptr);
    expect("destroyed at the thread's end", local_ends, 7);
    expect("main has its own", object_of_thread.number, 5);
}

static void threads()
{
    pthread_t others[2];
    void *result = nullptr;
    for (pthread_t &it : others) {
        expect("create", pthread_create(&it, nullptr, work, nullptr), 0);
    }
    for (pthread_t it : others) {
        expect("join", pthread_join(it, &result), 0);
        expect("its answer", static_cast<int>(reinterpret_cast<uintptr_t>(result)), 42 + 41);
    }
    expect("constructed once", constructed, 1);
    expect("guarded", counted, 40);
    expect("thread_local", mine, 1);
    expect("the guard has left it", pthread_mutex_trylock(&mutex), 0);
}

int main()
{
    expect("constructed before main", object.number + object.square.area(), 16);
    virtuals();
    templates();
    threads();
    thread_locals();
    printf("%d right, %d wrong\n", right, wrong);
    return wrong;
}
