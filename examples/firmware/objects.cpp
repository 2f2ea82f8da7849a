// C++ with its library: constructors before main and destructors after it, virtual calls, and exceptions.
#include <cstdio>
#include <memory>
#include <stdexcept>
#include <string>
#include <vector>

namespace {

// Says when it begins and ends.
class Guest {
public:
    explicit Guest(const char *name) : name(name) { std::printf("%s comes\n", name); }
    ~Guest() { std::printf("%s goes\n", name); }

private:
    const char *name;
};

class Shape {
public:
    virtual ~Shape() = default;
    virtual int area() const = 0;
    virtual std::string name() const = 0;
};

class Square : public Shape {
public:
    explicit Square(int side) : side(side) {}
    int area() const override { return side * side; }
    std::string name() const override { return "square"; }

private:
    int side;
};

class Rectangle : public Shape {
public:
    Rectangle(int width, int height) : width(width), height(height)
    {
        if (width < 0 || height < 0)
            throw std::invalid_argument("a side is below 0");
    }
    int area() const override { return width * height; }
    std::string name() const override { return "rectangle"; }

private:
    int width, height;
};

Guest before_main("a global");

// A local is destroyed while the exception passes through here.
int area_of(int width, int height)
{
    Guest local("a local");
    return Rectangle(width, height).area();
}

int caught()
{
    int count = 0;
    for (int width : {3, -3}) {
        try {
            std::printf("area %d\n", area_of(width, 5));
        } catch (const std::exception &exception) {
            std::printf("caught: %s\n", exception.what());
            count++;
        }
    }
    try {
        std::printf("%d\n", std::vector<int>(3).at(7));
    } catch (const std::out_of_range &) {
        std::printf("caught: out of range\n");
        count++;
    }
    return count;
}

} // namespace

int main()
{
    std::vector<std::unique_ptr<Shape>> shapes;
    for (int side = 1; side <= 3; side++) {
        shapes.push_back(std::make_unique<Square>(side));
        shapes.push_back(std::make_unique<Rectangle>(side, side + 1));
    }
    int sum = 0;
    for (const auto &shape : shapes) {
        std::printf("%s of %d\n", shape->name().c_str(), shape->area());
        sum += shape->area();
    }
    return !(sum == 34 && caught() == 2);
}
