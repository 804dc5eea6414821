// Serves the object of the key `calc` until its standard input ends.
#include "demo.hh"
#include <iostream>
#include <limits>

class Calc : public POA_Demo::Calc {
public:
  void ping() override {}
  CORBA::Long add(CORBA::Long a, CORBA::Long b) override { return a + b; }
  char *echo(const char *text) override { return CORBA::string_dup(text); }
  CORBA::Long sum(const Demo::Longs &items) override {
    CORBA::Long total = 0;
    for (CORBA::ULong i = 0; i < items.length(); i++) total += items[i];
    return total;
  }
  void tell(const char *) override {}
  void fail() override { throw Demo::Bad(7); }
};

int main(int argc, char **argv) {
  CORBA::ORB_var orb = CORBA::ORB_init(argc, argv);
  // Objects of this POA have their ids for keys.
  CORBA::Object_var found = orb->resolve_initial_references("omniINSPOA");
  PortableServer::POA_var poa = PortableServer::POA::_narrow(found);
  PortableServer::ObjectId_var id = PortableServer::string_to_ObjectId("calc");
  Calc calc;
  poa->activate_object_with_id(id, &calc);
  PortableServer::POAManager_var manager = poa->the_POAManager();
  manager->activate();
  std::cout << "ready" << std::endl;
  std::cin.ignore(std::numeric_limits<std::streamsize>::max());
  orb->destroy();
}
