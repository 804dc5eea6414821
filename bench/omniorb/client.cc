// Calls each operation of the object that its first word names, and prints what it came to.
#include "demo.hh"
#include <iostream>

int main(int argc, char **argv) {
  CORBA::ORB_var orb = CORBA::ORB_init(argc, argv);
  try {
    CORBA::Object_var found = orb->string_to_object(argv[1]);
    // Unchecked: a narrow that asks the object whether it is a Calc would be one operation more.
    Demo::Calc_var calc = Demo::Calc::_unchecked_narrow(found);
    calc->ping();
    std::cout << "ping" << std::endl;
    std::cout << "add " << calc->add(2, 5) << std::endl;
    CORBA::String_var text = calc->echo("a string");
    std::cout << "echo " << text.in() << std::endl;
    Demo::Longs items;
    items.length(5);
    for (CORBA::ULong i = 0; i < 5; i++) items[i] = i;
    std::cout << "sum " << calc->sum(items) << std::endl;
    calc->tell("hello");
    std::cout << "tell" << std::endl;
    calc->fail();
  } catch (const Demo::Bad &bad) {
    std::cout << "Bad " << bad.code << std::endl;
  } catch (const CORBA::SystemException &e) {
    std::cout << e._name() << " " << e.minor() << std::endl;
    return 1;
  }
  orb->destroy();
}
