// Calls the account that its first word names, and prints what it said.
#include "bank.hh"
#include <iostream>

static void print(const char *what, const Bank::Amount &sum) {
  std::cout << what << " " << sum.cents << (sum.unit == Bank::EUR ? " EUR" : " USD") << std::endl;
}

int main(int argc, char **argv) {
  CORBA::ORB_var orb = CORBA::ORB_init(argc, argv);
  try {
    CORBA::Object_var found = orb->string_to_object(argv[1]);
    // The narrow asks the object by _is_a.
    Bank::Account_var account = Bank::Account::_narrow(found);
    CORBA::String_var owner = account->owner();
    std::cout << "owner " << owner.in() << std::endl;
    Bank::Amount sum, left;
    sum.unit = Bank::EUR;
    sum.cents = 1000;
    account->deposit(sum, left);
    print("balance", left);
    Bank::Amounts_var statement = account->statement(2);
    for (CORBA::ULong i = 0; i < statement->length(); i++) print("entry", statement[i]);
    account->remind("the rent");
    account->withdraw(sum);
  } catch (const Bank::Overdrawn &overdrawn) {
    print("overdrawn by", overdrawn.missing);
  } catch (const CORBA::SystemException &e) {
    std::cout << e._name() << " " << e.minor() << std::endl;
    return 1;
  }
  orb->destroy();
}
