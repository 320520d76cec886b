package mungo.lib;

import java.lang.reflect.Constructor;
import java.lang.reflect.Field;
import java.lang.reflect.Method;

/**
 * Tells classes that `mungo check` may have taken from those that it can't have: what it takes of a class leaves no mark
 * in a class file.
 */
final class Checked {
    private Checked() {}

    /**
     * Whether the class of this name is one of a program, extends and implements nothing, has no constructor but the one
     * without parameters, and its fields and methods are of ints, booleans, texts and classes of programs: what else a
     * class has, as a lambda or a list, `mungo check` refuses. A class that isn't found is none.
     */
    static boolean mayBe(String name) {
        try {
            ClassLoader own = Thread.currentThread().getContextClassLoader();
            Class<?> type = Class.forName(name, false, own == null ? ClassLoader.getSystemClassLoader() : own);
            return isOfProgram(type) && type.getSuperclass() == Object.class && type.getInterfaces().length == 0
                    && hasPlainMembers(type);
        } catch (ClassNotFoundException | LinkageError none) {
            return false;
        }
    }

    private static boolean hasPlainMembers(Class<?> type) {
        for (Constructor<?> constructor : type.getDeclaredConstructors()) {
            if (constructor.getParameterCount() > 0) {
                return false;
            }
        }
        for (Field field : type.getDeclaredFields()) {
            if (field.isSynthetic() || !isPlain(field.getType())) {
                return false;
            }
        }
        for (Method method : type.getDeclaredMethods()) {
            if (!isPlain(method)) {
                return false;
            }
        }
        return true;
    }

    private static boolean isPlain(Method method) {
        boolean isMain = method.getName().equals("main");
        for (Class<?> parameter : method.getParameterTypes()) {
            if (!isPlain(parameter) && !(isMain && parameter == String[].class)) {
                return false;
            }
        }
        return !method.isSynthetic() && (method.getReturnType() == void.class || isPlain(method.getReturnType()));
    }

    private static boolean isPlain(Class<?> type) {
        return type == int.class || type == boolean.class || type == String.class
                || !type.isPrimitive() && !type.isArray() && isOfProgram(type);
    }

    /** Whether a class is neither of the virtual machine nor of this library. */
    private static boolean isOfProgram(Class<?> type) {
        return type.getClassLoader() != null && !type.getName().matches("(java|javax|jdk|sun|mungo[.]lib)[.].*");
    }
}
